"""The radio after the multiplexer, for `campaigns/on_air/run.py --radio`: ODR-DabMod makes samples of an ETI file, as
a transmitter would send them, and two receivers that share no code with it, nor with one another, take the
sub-channel out of them again: welle-cli and gr-dab.
"""
import os
import subprocess
import time

from received import is_right
from tests import dab

FRAME = 6144
PYTHON = os.environ.get("GR_DAB_PYTHON", "/usr/bin/python3")
PROGRAMS = ("odr-dabmod", "welle-cli")
# gr-dab as a receiver: the samples, the file for the sub-channel's bytes, its first capacity unit, their number, and
# its protection (EEP-A, from 1).
GR_DAB = """
import sys
from gnuradio import blocks, gr
import gnuradio.dab as dab
samples, out, start, size, level = sys.argv[1], sys.argv[2], *map(int, sys.argv[3:6])
def settings(): return dab.parameters.dab_parameters(mode=1, sample_rate=2048000, verbose=False)
graph = gr.top_block()
source, floats = blocks.file_source(1, samples, False), blocks.uchar_to_float()
middle, scale = blocks.add_const_ff(-127.5), blocks.multiply_const_ff(1 / 64)
parts, joined = blocks.deinterleave(gr.sizeof_float), blocks.float_to_complex()
receiver = dab.parameters.receiver_parameters(mode=1, softbits=True, input_fft_filter=True,
    autocorrect_sample_rate=False, sample_rate_correction_factor=1.0, always_include_resample=True, verbose=False,
    correct_ffe=True, equalize_magnitude=True)
demodulator, fast = dab.ofdm_demod(settings(), receiver), dab.fic_decode(settings())
main = dab.msc_decode(settings(), start, size, level - 1)
graph.connect(source, floats, middle, scale, parts)
graph.connect((parts, 0), (joined, 0))
graph.connect((parts, 1), (joined, 1))
graph.connect(joined, demodulator)
graph.connect(demodulator, fast, blocks.null_sink(32))
graph.connect(demodulator, main, blocks.file_sink(1, out))
graph.run()
"""


def with_a_tap(eti, subchannel):
    """The same frames with one service more, which announces the sub-channel as sound (FIG 0/2 and 1/1, in each fourth
    frame): so a receiver of sound writes the sub-channel's bytes down as it decoded them. Neither the sub-channel nor
    its data service is touched. Blocks and frames have the checksum of packets (EN 300 401, ETS 300 799)."""
    figures = bytes([0x06, 0x02, 0x4D, 0xAC, 1, 0x00, subchannel << 2 | 2])
    figures += bytes([0x35, 0x01, 0x4D, 0xAC]) + b"tap".ljust(16) + bytes([0xE0, 0])
    block = (figures + b"\xff").ljust(30, b"\0")
    tapped = bytearray(eti)
    for number, at in enumerate(range(0, len(eti) - FRAME + 1, FRAME)):
        information = at + 8 + 4 * (tapped[at + 5] & 0x7F) + 4
        end = at + 8 + 4 * int.from_bytes(bytes([tapped[at + 6] & 7, tapped[at + 7]]), "big")
        if number % 4 == 1:
            tapped[information + 64 : information + 96] = block + dab.checksum(block)
        tapped[end : end + 2] = dab.checksum(bytes(tapped[information:end]))
    return bytes(tapped)


def send(room, eti, subchannel):
    """Makes samples of these frames: the file samples.iq, of 2,048,000 pairs of bytes a second."""
    (room / "tap.eti").write_bytes(with_a_tap(eti, subchannel))
    with open(room / "radio", "ab") as said:
        words = ["odr-dabmod", "tap.eti", "-f", "samples.iq", "-F", "u8", "-g", "var", "-a", "0.8"]
        subprocess.run(words, cwd=room, stdout=said, stderr=said, check=True)


def heard_by_welle(room, seconds):
    """The sub-channel's bytes as welle-cli took them out of the samples. It plays in real time, begins again at the
    end of the file, and ends with its input: so it is stopped before the file's end."""
    heard = room / "welle"
    heard.mkdir()
    reading, writing = os.pipe()
    with open(room / "radio", "ab") as said:
        words = ["welle-cli", "-f", room / "samples.iq", "-D", "-T"]
        radio = subprocess.Popen(words, cwd=heard, stdin=reading, stdout=said, stderr=said)
        time.sleep(seconds - 1)
        radio.kill()
        radio.wait()
    os.close(reading)
    os.close(writing)
    taken = heard / "tap.msc"
    return taken.read_bytes() if taken.exists() else b""


def has_gr_dab():
    return subprocess.run([PYTHON, "-c", "import gnuradio.dab"], capture_output=True).returncode == 0


def heard_by_gr_dab(room, rate):
    """The same by gr-dab, of a sub-channel that begins at capacity unit 0 and is protected by EEP 3-A (6 units for
    each 8 kbit/s)."""
    with open(room / "radio", "ab") as said:
        words = [PYTHON, "-c", GR_DAB, room / "samples.iq", room / "gr-dab.msc", "0", str(rate * 6 // 8), "3"]
        subprocess.run(words, cwd=room, stdout=said, stderr=said, check=True)
    return (room / "gr-dab.msc").read_bytes()


def packets_in(bytes_, rate, address):
    """The packets at the address, of logical frames of a packet-mode sub-channel (3 bytes for each kbit/s, each of
    whole packets), and those that were wrong since the first that was right: a receiver's first frames have only a part
    of their bits yet."""
    packets, bad, length = [], [], 3 * rate
    for frame in (bytes_[at : at + length] for at in range(0, len(bytes_) - length + 1, length)):
        for packet in dab.packets_in(frame):
            if not is_right(packet):
                bad += [packet] if packets else []
            elif (packet[0] & 3) << 8 | packet[1] == address:
                packets.append(packet)
    return packets, bad
