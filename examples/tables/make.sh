#!/usr/bin/env bash
# Makes parts.dll and tables.exe from their sources, with ilasm of mono and Python. ilasm has no text for an attribute of an interface row
# or of a constraint, nor for the flag of a key: these three cells are set afterwards, and the time and the module's GUID.
set -eu
cd "$(dirname "$0")"
ilasm /dll /out:parts.dll parts.il >/dev/null
ilasm /out:tables.exe tables.il >/dev/null
python3 - <<'END'
import sys
sys.dont_write_bytecode = True
sys.path.insert(0, "../../.ci")
from rows import COLUMNS, Image

def cell(image, data, table, row, column, value):
    """Sets a cell of a table, each of whose columns has its number of bytes or two; the row's bytes are there once."""
    widths = [int(c) if c.isdigit() else 2 for c in COLUMNS[table]]
    spelled = lambda cells: b"".join(c.to_bytes(w, "little") for c, w in zip(cells, widths))
    new = row[:column] + [value] + row[column + 1:]
    assert data.count(spelled(row)) == 1
    data[:] = data.replace(spelled(row), spelled(new))

for name, guid in ("parts.dll", 0x22), ("tables.exe", 0x11):
    data = bytearray(open(name, "rb").read())
    image = Image(bytes(data))
    if name == "parts.dll":
        for row in image.rows["CustomAttribute"]:
            if image.blob(row[2]) == b"\1\0\1I\0\0":
                cell(image, data, "CustomAttribute", row, 0, 2 << 5 | 5)  # of the second InterfaceImpl row
            if image.blob(row[2]) == b"\1\0\1T\0\0":
                cell(image, data, "CustomAttribute", row, 0, 3 << 5 | 20)  # of the third GenericParamConstraint row
    else:
        cell(image, data, "Assembly", image.rows["Assembly"][0], 5, 1)
    at, size = image.streams["#GUID"]
    data[at:at + size] = bytes([guid]) * size
    header = int.from_bytes(data[0x3C:0x40], "little")
    data[header + 8:header + 12] = bytes(4)
    open(name, "wb").write(data)
END
