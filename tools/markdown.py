"""A table in Markdown."""


def table(columns, rows):
    print("| " + " | ".join(columns) + " |\n" + "|---" * len(columns) + "|")
    for row in rows:
        print("|" + "".join(f" {cell} |" if cell != "" else " |" for cell in map(str, row)))
