"""messages.py FILE..: lists the messages of each file with the first line of their comments."""
import sys

import protox


def comments(file):
    return {tuple(it.path): it.leading_comments for it in file.source_code_info.location}


def show(messages, path, front, found):
    for index, message in enumerate(messages):
        at, name = (*path, index), front + message.name
        lines = found.get(at, "").strip().splitlines() or [""]
        print(f"{name}: {lines[0]}")
        show(message.nested_type, (*at, 3), name + ".", found)


for path in sys.argv[1:]:
    try:
        with open(path, "rb") as source:
            file = protox.parse(path, source.read())
        show(file.message_type, (4,), "", comments(file))
    except protox.ParseError as error:
        print(f"refused: {error}")
