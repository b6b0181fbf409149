"""Converts passwords to the form in which servers compare them, by RFC 8265."""

from __future__ import annotations

from rigzumal._hidden import hidden

# The categories of RFC 8264's FreeformClass, section 4.3: what a person may type.
_LETTER_DIGITS = ("Ll", "Lu", "Lo", "Nd", "Lm", "Mn", "Mc")
_OTHER_LETTER_DIGITS = ("Lt", "Nl", "No", "Me")
_SYMBOLS = ("Sm", "Sc", "Sk", "So")
_PUNCTUATION = ("Pc", "Pd", "Ps", "Pe", "Pi", "Pf", "Po")
_SPACES = ("Zs",)
_ALLOWED = frozenset(_LETTER_DIGITS + _OTHER_LETTER_DIGITS + _SYMBOLS + _PUNCTUATION + _SPACES)

# Default_Ignorable_Code_Point in these categories, a property that unicodedata lacks; conjoining
# Hangul (sections 9.9 and 9.13); the exceptions of RFC 5892, section 2.6.
_REFUSED = (
    "[\u034f\u17b4\u17b5\u180b-\u180f\u3164\ufe00-\ufe0d\uffa0\U000e0100-\U000e01ef"
    "\u1100-\u11ff\ua960-\ua97c\ud7b0-\ud7fb"
    "\u0640\u07fa\u302e\u302f\u3031-\u3035\u303b]"
)
# Emoji are typed with these, and with U+FE0E and U+FE0F, which have an allowed category.
_JOINERS = "\u200c\u200d"


@hidden
def opaque_string(text: str) -> str:
    """Returns the text as RFC 8265's OpaqueString (section 4.2): in NFC, with each space as U+0020.

    A password is therefore the same from each keyboard: macOS may send a letter and its accent
    separately, and Windows sends both as one character. The function changes neither case nor
    width. The function allows joiners and emoji selectors everywhere, while the RFC allows them
    only in some contexts, or not at all.

    Raises:
        ValueError: the text is empty, or has a character that the RFC forbids: a control character,
        a character that this Python's Unicode doesn't define, or an invisible one. The exception
        doesn't show the text.
    """
    import re
    import unicodedata

    spaced = "".join(" " if unicodedata.category(it) == "Zs" else it for it in text)
    made = unicodedata.normalize("NFC", spaced)
    if not made:
        raise ValueError("the password is empty")
    others = {unicodedata.category(it) for it in made if it not in _JOINERS} - _ALLOWED
    if others or re.search(_REFUSED, made):
        raise ValueError("the password has a character that can't be typed")
    return made
