#!/usr/bin/env python3
"""Sends a logo over a radio signal, and draws README's picture with the logo that came out: `motcar play` sends
examples/logo.png, ODR-DabMux and ODR-DabMod make samples of the signal, and welle-cli takes the sub-channel out of them
again. The receiver of tests/dab.py gathers its object.

    campaigns/on_air/picture.py [PROGRAM]

It takes half a minute, and needs odr-dabmux, odr-dabmod and welle.io, as Debian 13 has them. It ends with status 1 if the logo
does not come, or not byte for byte; else it writes docs/on-air.svg.
"""
import base64
import pathlib
import shutil
import subprocess
import sys
import tempfile

here = pathlib.Path(__file__).resolve().parent
sys.path[:0] = [str(here), str(here.parent)]

import campaign
import radio
from received import FRAME, objects_of

LOGO, PICTURE = campaign.top / "examples/logo.png", campaign.top / "docs/on-air.svg"
SECONDS, RATE, ADDRESS = 20, 32, 7
DRAWN = """\
<svg xmlns="http://www.w3.org/2000/svg" viewBox="0 0 760 150" font-family="sans-serif" font-size="14" text-anchor="middle">
<defs><marker id="end" viewBox="0 0 8 8" refX="8" refY="4" markerWidth="8" markerHeight="8" orient="auto">
<path d="M0 0L8 4L0 8z" fill="#456"/></marker></defs>
<rect width="760" height="150" fill="#fff"/>
<g fill="#eef3f8" stroke="#456"><rect x="6" y="20" width="140" height="44" rx="6"/><rect x="6" y="86" width="140" height="44" rx="6"/>
<rect x="184" y="50" width="116" height="50" rx="6" fill="#cfe3f5"/><rect x="382" y="50" width="110" height="50" rx="6"/>
<rect x="612" y="6" width="138" height="138" rx="10"/></g>
<g stroke="#456" fill="none"><g marker-end="url(#end)"><path d="M146 42L182 66"/><path d="M146 108L182 84"/><path d="M300 75L380 75"/></g>
<path d="M492 75L540 75M540 95L540 45M530 35A16 16 0 0 0 530 55M550 35A16 16 0 0 1 550 55M522 27A28 28 0 0 0 522 63M558 27A28 28 0 0 1 558 63"/></g>
<g fill="#123"><text x="76" y="39">a folder of files</text><text x="76" y="56" font-size="12">logo.png</text><text x="76" y="112">lines of commands</text>
<text x="242" y="72" font-weight="bold">motcar play</text><text x="242" y="90" font-size="12">station.disk</text>
<text x="340" y="67" font-size="12">packets</text><text x="340" y="91" font-size="12">named pipe</text>
<text x="437" y="72">multiplexer</text><text x="437" y="90" font-size="12">and modulator</text><text x="540" y="114" font-size="12">radio signal</text>
<text x="681" y="24" font-size="12">received</text></g>
<image x="631" y="33" width="100" height="100" href="data:image/png;base64,{logo}"/>
</svg>
"""


def sent(room, program):
    """The multiplexer's frames, which carry the logo round and round."""
    (room / "objects").mkdir()
    shutil.copy(LOGO, room / "objects")
    for words in (["format", "air.disk", "--address", str(ADDRESS)],
                  ["play", "air.disk", "packets.file", "--folder", "objects", "--at-once", "--turns", "16"]):
        subprocess.run([program, *words], cwd=room, check=True)
    text = (campaign.top / "examples/odr-dabmux.mux").read_text()
    for old, new in (("nbframes 0 ", f"nbframes {round(SECONDS / FRAME)} "), ('throttle "simul://"', ""),
                     ("packets.pipe", "packets.file"), ("nonblock true", "load_entire_file true")):
        text = text.replace(old, new)
    (room / "air.mux").write_text(text)
    with open(room / "radio", "wb") as said:
        subprocess.run(["odr-dabmux", "air.mux"], cwd=room, check=True, stdout=said, stderr=said)
    return (room / "on-air.eti").read_bytes()


def main():
    missing = [it for it in ("odr-dabmux", *radio.PROGRAMS) if not shutil.which(it)]
    if missing:
        sys.exit(f"{', '.join(missing)} not installed")
    program = str(pathlib.Path(sys.argv[1]).resolve()) if sys.argv[1:] else campaign.program.find()
    with tempfile.TemporaryDirectory() as name:
        room = pathlib.Path(name)
        radio.send(room, sent(room, program), 1)
        packets, wrong = radio.packets_in(radio.heard_by_welle(room, SECONDS), RATE, ADDRESS)
    came = set(objects_of(packets))
    print(f"welle-cli: {len(packets)} packets, {len(wrong)} wrong; objects: {[(it, len(body)) for it, body in came]}")
    if came != {(LOGO.name, LOGO.read_bytes())}:
        sys.exit("this is not the logo")
    (_, body), = came
    PICTURE.write_text(DRAWN.format(logo=base64.b64encode(body).decode()))
    print(f"the logo came byte for byte: {PICTURE.relative_to(campaign.top)}")


main()
