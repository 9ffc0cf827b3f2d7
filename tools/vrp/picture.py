"""Figures by matplotlib: the same data give the same bytes."""
import argparse
import sys

from vrp.files import InputFault, write_whole

COLOURS = (0, 2, 4, 8, 10, 12, 14, 16, 18, 1, 3, 5, 9, 11, 13, 15, 17, 19)  # of the map tab20, without red: that is for warp


def picture_path(path):
    """The path of a picture, whose ending tells its form."""
    if not path.endswith((".svg", ".png")):
        raise argparse.ArgumentTypeError(f"the picture's name ends in .svg or .png: {path}")
    return path


def load_pyplot():
    """Matplotlib without a screen."""
    try:
        import matplotlib
    except ImportError:
        words = f"isn't installed for {sys.executable} (Debian: apt-get install python3-matplotlib; others: pip install matplotlib)"
        raise InputFault("matplotlib", 0, words) from None
    matplotlib.use("Agg")
    matplotlib.rcParams.update({"svg.hashsalt": "pyvrp", "svg.fonttype": "none", "font.sans-serif": ["DejaVu Sans"]})
    from matplotlib import pyplot

    return pyplot


def new_figure(panels, height=7):
    """A figure with panels side by side, of a height in inches."""
    figure, axes = load_pyplot().subplots(1, panels, figsize=(7 * panels, height), squeeze=False)
    return figure, list(axes[0])


def colour_of(number):
    """The colour of a route, counted from 1."""
    return load_pyplot().get_cmap("tab20")(COLOURS[(number - 1) % len(COLOURS)])


def line_of(number):
    """The kind of line of a route, counted from 1: another one where colours come again."""
    return ("-", "--", ":", "-.")[(number - 1) // len(COLOURS) % 4]


def save(figure, path):
    """Writes the picture whole, in the form that the name's ending tells."""
    form = path.rsplit(".", 1)[-1]
    metadata = {"Date": None} if form == "svg" else None
    write_whole(path, lambda temporary: figure.savefig(temporary, format=form, metadata=metadata, bbox_inches="tight"))
