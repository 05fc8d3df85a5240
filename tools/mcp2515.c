/*
 * mcp2515: the MCP2515 stand-in on the command line. Everything that it knows
 * of the chip it asks the archive; here are only words and files.
 */
#include <stdio.h>
#include <string.h>

#include "mcp2515.h"
#include "tool.h"

static const struct subcommand *const subcommands[] = {&replay_command,  &chip_command,
                                                       &compare_command, &timing_command,
                                                       &load_command,    &profile_command};
enum { SUBCOMMANDS = sizeof subcommands / sizeof *subcommands };

static int print_help(void)
{
    puts("usage: mcp2515 COMMAND [ARGUMENT]..\n"
         "       mcp2515 --help | --version\n\n"
         "A software stand-in for the MCP2515 CAN controller.\n");
    for (size_t i = 0; i < SUBCOMMANDS; i++)
        printf("  %-8s %s\n", subcommands[i]->name, subcommands[i]->summary);
    puts("\n'mcp2515 COMMAND --help' says more. In place of a file, - is standard input;\n"
         "-- ends the options. Exit status: 0 good; 1 a replayed log ended in refusal 6 or\n"
         "8, two compared logs are not the same, there is no setting for a bit rate, a checked\n"
         "one is not sound, or a profile to load has to wait; 2 trouble.");
    return flush_out();
}

static int print_version(void)
{
    printf("mcp2515 %s, chip version %d\n", MCP2515_VERSION, MCP2515_CHIP_VERSION);
    return flush_out();
}

static int usage_trouble(const char *what, const char *argument)
{
    fprintf(stderr, "mcp2515: %s%s\nTry 'mcp2515 --help'.\n", what, argument);
    return STATUS_TROUBLE;
}

int main(int argc, char **argv)
{
    if (argc < 2)
        return usage_trouble("no command", "");
    if (strcmp(argv[1], "--help") == 0)
        return print_help();
    if (strcmp(argv[1], "--version") == 0)
        return print_version();
    for (size_t i = 0; i < SUBCOMMANDS; i++)
        if (strcmp(argv[1], subcommands[i]->name) == 0)
            return subcommands[i]->run(argc - 1, argv + 1);
    return usage_trouble(argv[1][0] == '-' ? "unknown option " : "unknown command ", argv[1]);
}
