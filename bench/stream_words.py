"""The words of bench/streams, bench/compare and bench/hostile."""
import sys


def usage(text):
    """Ends with status 2 and the usage text."""
    sys.stderr.write(text)
    sys.exit(2)


def read_words(text, programs, numbers, texts=()):
    """The program words, and a map of what the `--name VALUE` words say.

    `programs` is how many words stand without a name. `numbers` has the names of whole numbers, and
    what each is where it is left out; `texts` names those of texts, which are None where left out.
    """
    words, found, plain = sys.argv[1:], dict(numbers), []
    found.update({name: None for name in texts})
    while words:
        word = words.pop(0)
        name = word[2:]
        if not word.startswith("--"):
            plain.append(word)
        elif name in texts and words:
            found[name] = words.pop(0)
        elif name in numbers and words and words[0].isascii() and words[0].isdigit():
            found[name] = int(words.pop(0))
        else:
            usage(text)
    if len(plain) != programs:
        usage(text)
    return plain, found
