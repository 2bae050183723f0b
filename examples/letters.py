"""Words in a picture: a composition of solids for each letter, seven points high and drawn at twice that size."""

from drawn import composition

SCALE = 2
HEIGHT = 9 * SCALE
SPACE = 3
# Rows from the top, a point a mark. The last two rows are below the line.
LETTERS = {
    "A": ".###. #...# #...# ##### #...# #...# #...#",
    "D": "####. #...# #...# #...# #...# #...# ####.",
    "E": "##### #.... #.... ####. #.... #.... #####",
    "F": "##### #.... #.... ####. #.... #.... #....",
    "L": "#.... #.... #.... #.... #.... #.... #####",
    "M": "#...# ##.## #.#.# #.#.# #...# #...# #...#",
    "P": "####. #...# #...# ####. #.... #.... #....",
    "T": "##### ..#.. ..#.. ..#.. ..#.. ..#.. ..#..",
    "a": "..... ..... .###. ....# .#### #...# .####",
    "c": ".... .... .### #... #... #... .###",
    "e": "..... ..... .###. #...# ##### #.... .###.",
    "f": "..## .#.. ###. .#.. .#.. .#.. .#..",
    "h": "#... #... ###. #..# #..# #..# #..#",
    "i": "# . # # # # #",
    "k": "#... #... #..# #.#. ##.. #.#. #..#",
    "l": "# # # # # # #",
    "m": "..... ..... ####. #.#.# #.#.# #.#.# #.#.#",
    "n": ".... .... ###. #..# #..# #..# #..#",
    "o": "..... ..... .###. #...# #...# #...# .###.",
    "q": "..... ..... .#### #...# #...# #...# .#### ....# ....#",
    "r": "... ... #.# ##. #.. #.. #..",
    "s": ".... .... .### #... .##. ...# ###.",
    "t": ".#. .#. ### .#. .#. .#. .##",
    "u": ".... .... #..# #..# #..# #..# .###",
    "v": "..... ..... #...# #...# #...# .#.#. ..#..",
    "z": ".... .... #### ...# .##. #... ####",
}


def letter(rows, colour):
    """A composition of the letter: a solid for each run of marks in a row, as far down as the rows under it have it too."""
    found, ended = [], {}
    for y, row in enumerate(rows):
        begun = {}
        for x, run in runs(row):
            top = ended.get((x, run), y)
            begun[x, run] = top
        found += [(x, top, run, y - top) for (x, run), top in ended.items() if begun.get((x, run)) != top]
        ended = begun
    found += [(x, top, run, len(rows) - top) for (x, run), top in ended.items()]
    layers = [
        {"source": {"solid": [SCALE * run, SCALE * tall, 255, *colour]}, "x": SCALE * x, "y": SCALE * top} for x, top, run, tall in found
    ]
    return composition(SCALE * len(rows[0]), HEIGHT, layers)


def runs(row):
    """Where marks begin in a row, and how many follow."""
    starts = [x for x, mark in enumerate(row) if mark == "#" and row[x - 1 : x] != "#"]
    return [(x, (row[x:] + ".").index(".")) for x in starts]


def words_of(words, first, colour):
    """A composition for each letter of the words, which has the number `first` and those after it, and one for each of the words."""
    used = sorted({it for word in words for it in word if it != " "})
    letters = {name: letter(LETTERS[name].split(), colour) for name in used}
    return [*letters.values(), *[word_of(word, used, letters, first) for word in words]]


def word_of(word, used, letters, first):
    layers, x = [], 0
    for name in word:
        if name == " ":
            x += SPACE * SCALE
            continue
        layers.append({"source": {"comp": first + used.index(name)}, "x": x})
        x += letters[name]["width"] + SCALE
    return composition(x, HEIGHT, layers)
