"""How wide words are, letter by letter, in the widest font that a reader may have: DejaVu Sans, which stands in for
Helvetica where that is missing. Words that have room there have room in the others."""

# Letters by how wide they are, in thousandths of the size, plain and bold; an arrow is Helvetica's, the wider one.
PLAIN = {
    275: "'", 278: 'ijl', 295: 'IJ', 318: ' ,.’', 337: '/:;', 352: 'f', 361: '-', 390: '()[]', 392: 't', 401: '!₀₁₂₃',
    411: 'r', 500: '_–', 521: 's', 525: 'z', 550: 'c', 557: 'L', 575: 'F', 579: 'k', 592: 'vxy', 603: 'P', 611: 'TY',
    613: 'ao', 615: 'e', 632: 'E', 635: 'Sbdghnpqu', 636: '0123456789', 656: 'K', 685: 'AVXZ', 686: 'B', 698: 'CR',
    732: 'U', 752: 'HN', 770: 'D', 775: 'G', 787: 'OQ', 818: 'w', 838: '+<=>^×−', 863: 'M', 974: 'm', 989: 'W',
    1000: '→',
}
BOLD = {
    306: "'", 343: 'ijl', 348: ' ', 365: '/', 372: 'IJ', 380: ',.’', 400: ':;', 415: '-', 435: 'f', 438: '₀₁₂₃',
    457: '!()[]', 478: 't', 493: 'r', 500: '_–', 582: 'z', 595: 'cs', 637: 'L', 645: 'x', 652: 'vy', 665: 'k',
    675: 'a', 678: 'e', 683: 'EFT', 687: 'o', 696: '0123456789', 712: 'hnu', 716: 'bdgpq', 720: 'S', 725: 'YZ',
    734: 'CP', 762: 'B', 775: 'AKRVX', 812: 'U', 821: 'G', 830: 'D', 838: 'HN+<=>^×−', 850: 'OQ', 924: 'w', 995: 'M',
    1000: '→', 1042: 'm', 1103: 'W',
}
WIDTHS = [{letter: width for width, letters in widths.items() for letter in letters} for widths in (PLAIN, BOLD)]
# Any other letter, which may be as wide as the widest; and any letter of a font whose letters are equally wide.
OTHER, MONO = 1103, 602


def width_of(words, size, mono=False, bold=False):
    """How wide the words are, in pixels."""
    if mono:
        return MONO * size * len(words) / 1000
    return sum(WIDTHS[bold].get(letter, OTHER) for letter in words) * size / 1000


def wrapped(words, size, width, bold=False):
    """The words in lines that are no wider than asked."""
    lines = ['']
    for word in words.split():
        longer = f'{lines[-1]} {word}'.strip()
        if lines[-1] and width_of(longer, size, bold=bold) > width:
            lines.append(word)
        else:
            lines[-1] = longer
    return lines
