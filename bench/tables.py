"""What the tables of the bench are printed with, as Markdown."""
import sys
import textwrap

WIDTH = 100


def progress(what):
    print(what, file=sys.stderr, flush=True)


def say(text):
    """Prints a paragraph."""
    print("\n" + textwrap.fill(text, WIDTH, break_on_hyphens=False))


def item(text):
    """Prints an item of a list."""
    print(textwrap.fill(text, WIDTH, initial_indent="- ", subsequent_indent="  ",
                        break_on_hyphens=False))


def table(head, rows):
    print("\n| " + " | ".join(head) + " |\n|" + "---|" * len(head))
    for row in rows:
        print("| " + " | ".join(map(str, row)) + " |")
