#!/usr/bin/env python3
"""Shows the map of a running `clearmap serve` as a page in the browser: obstacles over a map of
distances, which follows the newest version.

    clearmap-view --port 7400 [--web 7480] [--map map.yaml] [--radius 0.22]
        [--footprint '0.3,0.2 -0.3,0.2 -0.3,-0.2 0.3,-0.2'] [--read-only]

Needs aiohttp and numpy (Debian's python3-aiohttp and python3-numpy), and libclearmap or the program
clearmap. It listens only on loopback. Nothing here is proved.
"""
import argparse
import os
import pathlib
import shutil
import socket
import sys
from typing import Callable, List, Optional, Tuple

HERE = pathlib.Path(__file__).resolve().parent
TOP = HERE.parent.parent
FOLDERS = (TOP / "clients/python", TOP / "tools/ros", HERE.parent / "python")
sys.path[:0] = [str(HERE), *(str(folder) for folder in FOLDERS if folder.is_dir())]

import clearmap_ros as ros

LACKS = "isn't installed for {}: Debian has python3-aiohttp and python3-numpy"


def program() -> Optional[str]:
    """The program that computes distances without the library: the one that CLEARMAP names, this
    repository's, the one next to an installed clearmap-view, or that on the path."""
    built = (TOP / "crates/clearmap/out/clearmap", HERE.parent.parent.parent / "bin/clearmap")
    found = [str(path) for path in built if os.access(path, os.X_OK)]
    return os.environ.get("CLEARMAP") or (found[0] if found else shutil.which("clearmap"))


def port_number(least: int) -> Callable[[str], int]:
    """A reader of a port from this number on."""

    def read(word: str) -> int:
        if not word.isdigit() or not least <= int(word) <= 65535:
            raise argparse.ArgumentTypeError(f"'{word}' is no port: {least} to 65535")
        return int(word)

    return read


def radius(word: str) -> str:
    """A robot's radius, as it is written."""
    try:
        if not 0 <= ros.exact(word) <= 10_000:
            raise ros.RosError("out of range")
    except ros.RosError:
        wanted = "a number from 0 to 10000, as 0.22"
        raise argparse.ArgumentTypeError(f"'{word}' is no radius: {wanted}") from None
    return word


def footprint(word: str) -> List[Tuple[str, str]]:
    """A robot's outline, as it is written."""
    try:
        points = ros.outline(word)
        for point in points:
            ros.exact(point[0]), ros.exact(point[1])
    except ros.RosError as fault:
        raise argparse.ArgumentTypeError(str(fault)) from None
    return [(str(x), str(y)) for x, y in points]


def listening(port: int) -> socket.socket:
    """A socket that listens on the page's own port."""
    try:
        return socket.create_server(("127.0.0.1", port))
    except OSError as fault:
        raise ros.RosError(f"port {port} can't be had: {fault.strerror}") from None


def parser() -> argparse.ArgumentParser:
    """The command line."""
    about = "A page in the browser that shows the map of a running server, and follows its"
    about += " versions."
    words = argparse.ArgumentParser(prog="clearmap-view", description=about)
    port, web = port_number(1), port_number(0)
    words.add_argument("--port", type=port, required=True, help="the port of clearmap serve")
    own = "the page's own port on loopback (default 7480; 0: the system picks one)"
    words.add_argument("--web", type=web, default=7480, help=own)
    yaml = "the map.yaml of ROS that the served map was made from: distances and places are in"
    yaml += " metres too, and unknown cells are hatched"
    words.add_argument("--map", metavar="YAML", help=yaml)
    robot = "the robot's radius that the page starts with, in metres with --map and else in cells"
    words.add_argument("--radius", type=radius, help=robot)
    outline = "the robot's convex outline around its centre, 'x,y x,y ..', in metres with --map (x"
    outline += " forward, y to the left) and else in cells (y downwards); the page sets it down on"
    outline += " the map. Without it the robot is a disc of its radius"
    words.add_argument("--footprint", type=footprint, metavar="POINTS", help=outline)
    words.add_argument("--read-only", action="store_true", help="the page can't change the map")
    return words


def serve(options: argparse.Namespace) -> None:
    """Serves the page until a signal ends it."""
    from aiohttp import web

    from clearmap.runs import no_library
    from following import Wanted
    from outlines import shape
    from site_of_map import Site
    from yaml_map import read_yaml_map

    known = read_yaml_map(options.map) if options.map else None
    if options.footprint:
        shape(options.footprint, known.frame if known else None)  # a fault ends the program
    lacking, dist = no_library(), program()
    if lacking and dist is None:
        raise ros.RosError(f"{lacking}; and there is no program clearmap on the path")
    with listening(options.web) as listener:
        own = listener.getsockname()[1]
        if lacking:
            print(f"clearmap-view: each picture takes a run of {dist}: {lacking}", file=sys.stderr)
        words = options.port, dist, not lacking, known, options.radius or "", options.read_only
        site = Site(own, Wanted(*words, options.footprint or ()))
        print(f"VIEW http://127.0.0.1:{own}/", flush=True)
        web.run_app(
            site.application(), sock=listener, print=None, access_log=None, shutdown_timeout=1
        )


def main() -> int:
    """Serves the page. Status 1 if a file or a port can't be had, with one line on standard error.
    """
    options = parser().parse_args()
    try:
        serve(options)
    except ModuleNotFoundError as missing:
        said = f"{missing.name} {LACKS.format(sys.executable)}"
    except ros.RosError as fault:
        said = str(fault)
    else:
        return 0
    print(f"clearmap-view: {said}", file=sys.stderr)
    return 1


if __name__ == "__main__":
    sys.exit(main())
