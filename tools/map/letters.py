"""How wide words are: the letters of DejaVu Sans, the widest of the drawings' fonts, so that by the others they are narrower."""

# Of the letters from the space to the tilde, in thousandths of the type's size.
PLAIN = [318, 401, 460, 838, 636, 950, 780, 275, 390, 390, 500, 838, 318, 361, 318, 337, 636, 636, 636, 636, 636, 636, 636, 636,
         636, 636, 337, 337, 838, 838, 838, 531, 1000, 684, 686, 698, 770, 632, 575, 775, 752, 295, 295, 656, 557, 863, 748, 787,
         603, 787, 695, 635, 611, 732, 684, 989, 685, 611, 685, 390, 337, 390, 838, 500, 500, 613, 635, 550, 635, 615, 352, 635,
         634, 278, 278, 579, 278, 974, 634, 612, 635, 635, 411, 521, 392, 634, 592, 818, 592, 592, 525, 636, 337, 636, 838]
BOLD = [348, 456, 521, 838, 696, 1002, 872, 306, 457, 457, 523, 838, 380, 415, 380, 365, 696, 696, 696, 696, 696, 696, 696, 696,
        696, 696, 400, 400, 838, 838, 838, 580, 1000, 774, 762, 734, 830, 683, 683, 821, 837, 372, 372, 775, 637, 995, 837, 850,
        733, 850, 770, 720, 682, 812, 774, 1103, 771, 724, 725, 457, 365, 457, 838, 500, 500, 675, 716, 593, 716, 678, 435, 716,
        712, 343, 343, 665, 343, 1042, 712, 687, 716, 716, 493, 595, 478, 712, 652, 924, 645, 652, 582, 712, 365, 712, 838]
OTHER = 1000        # any other letter


def wide(words, size, bold=False):
    """The width of words, in pixels."""
    letters = BOLD if bold else PLAIN
    return size / 1000 * sum(letters[ord(letter) - 32] if " " <= letter <= "~" else OTHER for letter in words)


def wrapped(words, size, room):
    """Words in lines no wider than the room; a word alone may be wider."""
    lines = [""]
    for word in words.split():
        longer = f"{lines[-1]} {word}".strip()
        lines[-1:] = [longer] if wide(longer, size) <= room or not lines[-1] else [lines[-1], word]
    return lines


def balanced(words, size, room):
    """As few lines as there may be, about equally long."""
    lines = wrapped(words, size, room)
    while room > 40 and len(wrapped(words, size, room - 4)) == len(lines):
        room -= 4
    return wrapped(words, size, room)
