"""Whether a WAV file is a second of sound: 48000 samples a second, one channel, audible and not silent at its beginning.

    python3 check_wav.py FILE.wav
"""

import array
import pathlib
import shutil
import subprocess
import sys
import wave

sys.path.append(str(pathlib.Path(__file__).resolve().parent.parent / "reference"))

from arguments import file, parser_of

RATE, LOUD = 48000, 8000


def wrong_samples(path):
    """What Python's reader finds wrong."""
    try:
        with wave.open(path) as sound:
            form = sound.getnchannels(), sound.getsampwidth(), sound.getframerate(), sound.getnframes()
            frames = sound.readframes(sound.getnframes())
    except (wave.Error, EOFError) as fault:
        return [f"no WAV file: {fault}"]
    samples = array.array("h", frames[:len(frames) // 2 * 2])
    if sys.byteorder == "big":
        samples.byteswap()
    wrong = [] if form == (1, 2, RATE, RATE) else [f"channels, bytes, rate, length: {form}"]
    peak = max(map(abs, samples), default=0)
    if peak < LOUD:
        wrong.append(f"the peak is {peak}, below {LOUD}")
    if max(map(abs, samples[:48]), default=0) < LOUD // 8:
        wrong.append("silent at its beginning")
    if max(map(abs, samples[-RATE // 10:]), default=0) < LOUD // 100:
        wrong.append("silent at its end")
    return wrong


def other_reader(path):
    """(program, what it says, what it must say) by a program that is not ours, or None."""
    for command, wanted in ((["soxi", path], ("Channels       : 1", "Sample Rate    : 48000", "48000 samples")),
                            (["file", path], ("WAVE audio", "16 bit, mono 48000 Hz"))):
        if shutil.which(command[0]):
            return command[0], subprocess.run(command, capture_output=True, text=True).stdout, wanted
    return None


def main():
    parser = parser_of(__doc__)
    parser.add_argument("sound", metavar="FILE.wav", type=file)
    path = str(parser.parse_args().sound)
    wrong, other = wrong_samples(path), other_reader(path)
    if other is None:
        print("skipped: no program to read the file besides Python (apt-get install sox)")
    else:
        wrong += [f"{other[0]} does not say {text!r}:\n{other[1]}" for text in other[2] if text not in other[1]]
    readers = "Python" if other is None else f"Python and {other[0]}"
    print(*wrong or [f"a second of sound, read by {readers}"], sep="\n")
    return 1 if wrong else 0


if __name__ == "__main__":
    sys.exit(main())
