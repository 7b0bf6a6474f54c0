"""Files written whole or not at all."""
import os

from placement_tool.files import Mistakes


def check_targets(targets, sources):
    """The files to write are different ones, none is a file that is read, and none is anything but a file."""
    seen = {os.path.realpath(path): path for path in sources}
    for path in targets:
        real = os.path.realpath(path)
        if real in seen:
            raise Mistakes([f"{path}: would overwrite {seen[real]}"])
        if os.path.exists(real) and not os.path.isfile(real):
            raise Mistakes([f"{path}: cannot be written: not a file"])
        seen[real] = path


def write_all(texts):
    """Writes each text to its path: first all of them to new files beside, which then take their places."""
    written = []
    try:
        for path, text in texts.items():
            real = os.path.realpath(path)
            beside = f"{real}.{os.getpid()}.new"
            with open(beside, "x", encoding="utf-8", newline="") as file:
                written.append((path, beside, real))
                file.write(text)
        while written:
            path, beside, real = written[0]
            os.replace(beside, real)
            written.pop(0)
    except OSError as e:
        raise Mistakes([f"{path}: cannot be written: {e.strerror}"]) from e
    finally:
        for _, beside, _ in written:
            os.unlink(beside)
