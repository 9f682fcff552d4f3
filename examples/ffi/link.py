"""link.py FILE..: links files, and lists the fields of named types with what they stand for."""
import sys

import protox


def show(messages, front):
    for message in messages:
        for field in message.field:
            if field.type_name:
                print(f"{front}{message.name}.{field.name}: {field.type_name}")
        show(message.nested_type, f"{front}{message.name}.")


files = {}
for path in sys.argv[1:]:
    with open(path, "rb") as source:
        files[path] = source.read()
try:
    for file in protox.link(files).file:
        show(file.message_type, f"{file.package}." if file.package else "")
except protox.LinkError as error:
    for fault in error.faults:
        print(f"{fault.file}:{fault.place.line + 1}:{fault.place.column + 1}: {fault.message}")
    sys.exit(1)
