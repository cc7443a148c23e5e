#!/usr/bin/env python3
"""Writes a tray for timing into a folder: schema.dtd, paths.txt and journal.xml. tray.py FOLDER [TILES]: 9,000 tiles make some 60,000 nodes and
a megabyte. The same arguments give the same bytes."""
import os
import random
import sys

SCHEMA = """<!ELEMENT scan (operator?, plate+)>
<!ELEMENT operator (#PCDATA)>
<!ELEMENT plate (label, well+)>
<!ELEMENT label (#PCDATA)>
<!ELEMENT well (label?, (tile | skipped)*)>
<!ELEMENT skipped EMPTY>
<!ELEMENT tile (x, y, focus?, image?)>
<!ELEMENT x (#PCDATA)>
<!ELEMENT y (#PCDATA)>
<!ELEMENT focus (#PCDATA)>
<!ELEMENT image (#PCDATA)>
<!ELEMENT note (#PCDATA)>
"""

PATHS = """child::plate/child::well/child::tile
descendant::tile[child::focus]/child::image
descendant::focus/parent::tile/parent::well
descendant::image/ancestor::plate/child::label
child::plate[descendant::skipped]/child::well[child::tile/child::focus or child::skipped]
descendant::text()/parent::x
descendant::skipped/ancestor-or-self::node()
descendant-or-self::node()[child::label or parent::plate]/self::well
"""


def journal(tiles):
    chance = random.Random(7)
    parts = ["<scan>\n<operator>night shift</operator>\n"]
    left, plate = tiles, 0
    while left:
        plate += 1
        parts.append("<plate>\n <label>P%d</label>\n" % plate)
        for well in range(min(24, -(-left // 20))):
            parts.append(" <well>\n  <label>%s%d</label>\n" % (chr(65 + well % 8), well // 8 + 1))
            for _ in range(min(20, left)):
                left -= 1
                if chance.random() < 0.05:
                    parts.append("   <skipped/>\n")
                parts.append("   <tile>\n    <x>%.3f</x>\n    <y>%.3f</y>\n" % (chance.randrange(100000) / 8, chance.randrange(100000) / 8))
                if chance.random() < 0.3:
                    parts.append("    <focus>%d.%d</focus>\n" % (chance.randrange(300), chance.randrange(10)))
                if chance.random() < 0.4:
                    parts.append("    <image>plate-%02d/well-%02d/tile-%05d-dapi &amp; gfp 20x.tif</image>\n" % (plate, well, left))
                parts.append("   </tile>\n")
            parts.append(" </well>\n")
        parts.append("</plate>\n")
    return "".join(parts) + "</scan>\n"


folder, tiles = sys.argv[1], int(sys.argv[2]) if len(sys.argv) > 2 else 9000
for name, text in (("schema.dtd", SCHEMA), ("paths.txt", PATHS), ("journal.xml", journal(tiles))):
    with open(os.path.join(folder, name), "w") as f:
        f.write(text)
