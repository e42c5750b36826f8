"""Devanagari in SLP1, written apart from the page, so that tests can hold the page against it."""

LETTERS = dict(
    zip(
        "अआइईउऊऋॠऌएऐओऔ\u0902\u0901\u0903कखगघङचछजझञटठडढणतथदधनपफबभमयरलवशषसहऽ",
        "aAiIuUfFxeEoOM~HkKgGNcCjJYwWqQRtTdDnpPbBmyrlvSzsh'",
    )
)
SIGNS = dict(zip("ािीुूृॄॢेैोौ", "AiIuUfFxeEoO"))
CONSONANTS = "kKgGNcCjJYwWqQRtTdDnpPbBmyrlvSzsh"
VIRAMA = "\u094d"


def slp1_of_devanagari(text):
    """A text in SLP1. Other signs than letters are blanks."""
    written = ""
    for sign in text:
        if sign in SIGNS or sign == VIRAMA:
            written = written[:-1] + SIGNS.get(sign, "")
        else:
            letter = LETTERS.get(sign, " ")
            written += letter + ("a" if letter in CONSONANTS else "")
    return " ".join(written.split())
