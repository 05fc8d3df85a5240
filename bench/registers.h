/* Register addresses and bits of the MCP2515, named as in the data sheet. */
#ifndef BENCH_REGISTERS_H
#define BENCH_REGISTERS_H

enum {
    RXF0SIDH = 0x00,
    RXF1SIDH = 0x04,
    RXF2SIDH = 0x08,
    BFPCTRL = 0x0C,
    TXRTSCTRL = 0x0D,
    CANSTAT = 0x0E, /* at every xEh */
    CANCTRL = 0x0F, /* at every xFh */
    RXF3SIDH = 0x10,
    RXF4SIDH = 0x14,
    RXF5SIDH = 0x18,
    TEC = 0x1C,
    REC = 0x1D,
    RXM0SIDH = 0x20,
    RXM1SIDH = 0x24,
    CNF3 = 0x28,
    CNF2 = 0x29,
    CNF1 = 0x2A,
    CANINTE = 0x2B,
    CANINTF = 0x2C,
    EFLG = 0x2D,
    TXB0CTRL = 0x30,
    TXB1CTRL = 0x40,
    TXB2CTRL = 0x50,
    RXB0CTRL = 0x60,
    RXB1CTRL = 0x70
};

/* Bytes of a message buffer, counted from its control register. */
enum { SIDH = 1, SIDL = 2, EID8 = 3, EID0 = 4, DLC = 5, D0 = 6, D7 = 13 };

/* Bytes of a filter or a mask, counted from its first. */
enum { RXF_SIDH = 0, RXF_SIDL = 1, RXF_EID8 = 2, RXF_EID0 = 3 };

/* TXRTSCTRL: the pin's level, and its enable; those of pin n are n places higher. */
enum { B0RTS = 0x08, B0RTSM = 0x01 };

/* TXBnCTRL */
enum { ABTF = 0x40, MLOA = 0x20, TXERR = 0x10, TXREQ = 0x08, TXP = 0x03 };

/* RXBnCTRL; FILHIT0 is RXB0's single hit bit, FILHIT the three of RXB1. */
enum { RXM = 0x60, RXRTR = 0x08, BUKT = 0x04, BUKT1 = 0x02, FILHIT0 = 0x01, FILHIT = 0x07 };

/* SIDL and DLC; IDE stands for EXIDE too, which is the same bit. */
enum { IDE = 0x08, SRR = 0x10, SID_LOW = 0xE0, EID_HIGH = 0x03, RTR = 0x40, DLC_CODE = 0x0F };

/* CANCTRL */
enum { REQOP = 0xE0, ABAT = 0x10, OSM = 0x08 };

/* CANINTF; CANINTE has the enables at the same places. */
enum {
    MERRF = 0x80,
    WAKIF = 0x40,
    ERRIF = 0x20,
    TX2IF = 0x10,
    TX1IF = 0x08,
    TX0IF = 0x04,
    RX1IF = 0x02,
    RX0IF = 0x01
};

/* EFLG */
enum {
    RX1OVR = 0x80,
    RX0OVR = 0x40,
    TXBO = 0x20,
    TXEP = 0x10,
    RXEP = 0x08,
    TXWAR = 0x04,
    RXWAR = 0x02,
    EWARN = 0x01
};

/* SPI instruction codes; RTS, READ RX BUFFER and LOAD TX BUFFER are families. */
enum {
    SPI_WRITE = 0x02,
    SPI_READ = 0x03,
    SPI_BIT_MODIFY = 0x05,
    SPI_LOAD_TX = 0x40,
    SPI_RTS = 0x80,
    SPI_READ_RX = 0x90,
    SPI_READ_STATUS = 0xA0,
    SPI_RX_STATUS = 0xB0,
    SPI_RESET = 0xC0
};

#endif
