"""What check_limits.py tries of the flags: the command line's own limits, and those of a store."""
import pathlib
import sys

sys.path.append(str(pathlib.Path(__file__).resolve().parent.parent))  # served.py
from limit_tools import Line, asked, check, image, ran, refused, replies, row
from served import Served, blank

# ---- the command line


@row("`--connections`, after which the server ends")
def connections(numbers, answers):
    least, most = numbers
    refused("serve", "--connections", least - 1, most + 1)
    with Served(blank(64, 48), connections=most) as server:
        check("a server for the most connections", Line(server.port).ask("PIN\n"), "OK 0")
    for count in (least, 100_000):
        with Served(blank(64, 48), "--workers", "2", connections=count) as server:
            answered = sum(
                Line(server.port).once(b"PIN\nAT city 1 1\nREVERT\nQUIT\n")[-4:] == b"BYE\n"
                for _ in range(count)
            )
            check(f"{count} connections one after another", answered, count)
            check(
                f"a server after {count} connections", server.last(), (f"SERVED {count} {count}", 0)
            )


@row("`--port`")
def ports(numbers, answers):
    least, most, asks = numbers
    refused("serve --connections 1", "--port", most + 1, -1)
    refused("ask", "--port", asks - 1, most + 1)
    with Served(blank(64, 48), port=least) as server:
        check(
            "a port that the system picks", asked(server.port, b"PIN\nQUIT\n"), (0, ["OK 0", "BYE"])
        )
    check("the last port is asked", ran(["ask", "--port", str(most)], b"")[0] in (0, 1), True)


@row("`--edge` of `dist` and `serve`")
def edges(numbers, answers):
    for word, wanted in (
        ([], "NONE"),
        (["--edge", "open"], "NONE"),
        (["--edge", "wall"], "OK 1 -1 0"),
    ):
        check(
            f"dist {word}",
            ran(["dist", "--query", "AT city 0 0", *word], blank(64, 48)),
            (0, wanted),
        )
        with Served(blank(64, 48), *word) as server:
            check(
                f"serve {word}",
                asked(server.port, b"PIN\nAT city 0 0\nQUIT\n"),
                (0, ["OK 0", wanted, "BYE"]),
            )
    refused("dist", "--edge", "none", "")
    refused("serve --connections 1", "--edge", "none", "")


@row("`--workers` of `serve`, connections served at once")
def workers(numbers, answers):
    least, most, default = numbers
    refused("serve --connections 1", "--workers", least - 1, most + 1)
    for count, words in (
        (least, ["--workers", str(least)]),
        (default, []),
        (most, ["--workers", str(most)]),
    ):
        with Served(image(64, 48), *words) as server:
            held = [Line(server.port) for _ in range(count)]
            check(
                f"{count} clients at once",
                replies(held, "PIN\nAT chess 63 47\n", 2),
                [["OK 0", "OK 63 0 0"]] * count,
            )
            waits = Line(server.port)
            waits.send("PIN\n")
            check(f"one client more than {count}", waits.silent(0.5), True)
            held[count // 2].ask("QUIT\n")
            check("it is served once another one ends", waits.reply(), "OK 0")


@row(
    "`--workers` of `dist`, threads that share the rows; from 2 on, an extra one writes; below "
    "2^22 cells one does all"
)
def threads(numbers, answers):
    least, most, default = numbers
    refused("dist", "--workers", least - 1, most + 1)
    picture = image(2100, 2000)
    one = ran(["dist", "--workers", str(least)], picture)
    check("dist by one worker", (one[0], one[1].count("\n")), (0, 1999))
    for words in (["--workers", str(most)], []):
        check(f"dist {words}", ran(["dist", *words], picture) == one, True)


# ---- the settings of a store


@row("`--blocks`, tiles of 64 by 64 cells")
def blocks(numbers, answers):
    most, default = numbers
    for count in (1, most + 1):
        check(
            f"--blocks {count} of a map of two tiles",
            ran(["serve", "--connections", "1", "--blocks", str(count)], blank(65, 1)),
            (1, answers[0]),
        )
    with Served(blank(65, 1), "--blocks", "2") as server:
        check(
            "no block more than the map's",
            Line(server.port).ask("PAINT 0 0 1 1\n"),
            f"{answers[1]} 1 0",
        )
    for words in (["--blocks", str(most)], []):
        with Served(blank(4096, 4096), *words) as server:
            line = Line(server.port)
            used, place = 4096, 0
            for command in ("PAINT", "CLEAR", "PAINT", "CLEAR"):
                said = line.ask(f"{command} 0 0 4096 4096\n")
                used += 4096
                place += 1
                check(
                    f"{used} blocks in use",
                    said,
                    f"OK {place} {4096 * 4096}" if used <= default else f"{answers[1]} 4096 0",
                )
                if used <= default:
                    place += 1
                    line.ask("PUBLISH\n")


@row("`--versions`, kept at once")
def versions(numbers, answers):
    least, most, default = numbers
    for count in (least - 1, most + 1):
        check(
            f"--versions {count}",
            ran(["serve", "--connections", "1", "--versions", str(count)], blank(1, 1)),
            (1, answers[0]),
        )
    for count, words in (
        (least, ["--versions", str(least)]),
        (default, []),
        (most, ["--versions", str(most)]),
    ):
        with Served(blank(64, 48), *words) as server:
            line = Line(server.port)
            for version in range(1, count):
                check(
                    f"version {version} of {count}",
                    line.ask("PUBLISH\n"),
                    f"OK {version} {version}",
                )
            check(f"one version more than {count}", line.ask("PUBLISH\n"), answers[1])
            check("a collect", line.ask("COLLECT\n"), f"OK {count} {count - 1} 0")
            check("a publish after it", line.ask("PUBLISH\n"), f"OK {count + 1} {count}")


@row("`--log`, accepted commands")
def log(numbers, answers):
    least, most, default = numbers
    for count in (least - 1, most + 1):
        check(
            f"--log {count}",
            ran(["serve", "--connections", "1", "--log", str(count)], blank(1, 1)),
            (1, answers[0]),
        )
    for count, words in (
        (least, ["--log", str(least)]),
        (default, []),
        (most, ["--log", str(most)]),
    ):
        with Served(blank(64, 48), *words, connections=1) as server:
            line = Line(server.port)
            check(f"{count} commands", line.reverts(1, count), count)
            check(f"one command more than {count}", line.ask("REVERT\n"), answers[1])
            check("a checkpoint", line.ask("CHECKPOINT\n"), f"OK {count + 1}")
            check("a command after it", line.ask("REVERT\n"), f"OK {count + 2}")
            check("the end", line.ask("QUIT\n"), "BYE")
            check(
                "what was served, with its checkpoints", server.last(), (f"SERVED 1 {count + 2}", 0)
            )
