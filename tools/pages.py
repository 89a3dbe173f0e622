"""What the scripts share that make or check pages: which pages there are, filling lines, and writing
a page or comparing it."""
import difflib
import pathlib
import re
import sys

ROOT = pathlib.Path(__file__).resolve().parent.parent
PAGES = [ROOT / 'README.md'] + sorted((ROOT / 'docs').glob('*.md'))
WIDTH = 100
SPAN = re.compile(r'(?<!`)(`+)(?!`).*?(?<!`)\1(?!`)')
# What would be read as the beginning of something else at the head of a line.
MARK = re.compile(r'([-*+]|\d{1,9}[.)]|#{1,6})$|\||>|`{3}|~{3}|<!--|[-=]+$')


def crate_names():
    """The crates of crates.txt, in its order."""
    text = (ROOT / 'crates.txt').read_text(encoding='utf-8')
    return re.findall(r'^(\w+)[^:#\n]*:', text, re.M)


def words(text):
    """The words of a text. A code span is part of one word, with the blanks in it."""
    joined = SPAN.sub(lambda span: span.group(0).replace(' ', '\0'), text)
    return [word.replace('\0', ' ') for word in joined.split()]


def glued(parts):
    """The same, with a word that may not begin a line behind the one before it."""
    out = []
    for part in parts:
        if out and MARK.match(part):
            out[-1] += ' ' + part
        else:
            out.append(part)
    return out


def filled(text, first='', rest=''):
    """A text in lines of at most 100 columns, where its words fit: one that begins with `first`, and
    others with `rest`. What stands between backticks is not broken, if it fits on a line."""
    lines, line, empty = [], first, True
    for word in glued(words(text)):
        pieces = [word] if len(rest) + len(word) <= WIDTH else word.split(' ')
        for piece in pieces:
            if not empty and len(line) + 1 + len(piece) > WIDTH and not MARK.match(piece):
                lines.append(line)
                line, empty = rest, True
            line += piece if empty else ' ' + piece
            empty = False
    return lines + [line]


def code_spans(text):
    """What stands between backticks in the text of a page."""
    return re.findall(r'`([^`\n]+)`', text)


def head_of(page, marker):
    """What is written by hand in a page: all above the line that begins the made part."""
    text = page.read_text(encoding='utf-8')
    if text.count(marker) != 1:
        raise SystemExit(f'{page.name}: the line "{marker.strip()}" has to stand in it once')
    return text[:text.index(marker)]


def differences(page, made):
    """The first lines in which a page differs from what it should be."""
    old, new = page.read_text(encoding='utf-8').splitlines(), made.splitlines()
    lines = list(difflib.unified_diff(old, new, 'the page', 'what is made', n=0, lineterm=''))
    more = [f'... and {len(lines) - 20} lines more'] if len(lines) > 20 else []
    return lines[:20] + more


def finish(page, made, faults):
    """Writes a page, or with --check compares it. Ends the run, with 1 if all is not well."""
    faults = list(faults)
    for fault in faults:
        print(f'docs/{page.name}: {fault}')
    if '--check' not in sys.argv[1:]:
        page.write_text(made, encoding='utf-8')
    elif made != page.read_text(encoding='utf-8'):
        tool = pathlib.Path(sys.argv[0]).name
        print(f'docs/{page.name}: not as it is made now; run tools/{tool}')
        print('\n'.join(differences(page, made)))
        sys.exit(1)
    sys.exit(1 if faults else 0)
