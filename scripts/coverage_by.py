"""What traces have seen of an executable, by function, as lines and as a page for a browser."""
import bisect, collections, html

# Instructions by address; those that were seen; direct ways that no trace has taken, as pairs of the transfer's address and the target; and
# how many ways have no end, as those of a return.
Function = collections.namedtuple("Function", "start name addresses seen direct anywhere")


def seen_of(blocks):
    return {address for block in blocks for address, _ in block.instructions}


def last_of(block):
    """Where a block's last instruction stands; a block may have none."""
    return block.instructions[-1][0] if block.instructions else block.start


def functions(blocks, addresses, symbols):
    """The functions that have instructions, by address; what stands below the first symbol, or in a file without symbols, has no name."""
    found = {}

    def of(address):
        k = bisect.bisect_right(symbols.starts, address) - 1
        start, name = (symbols.starts[k], symbols.names[k]) if k >= 0 else (0, "")
        return found.setdefault(start, Function(start, name, [], set(), set(), set()))

    seen = seen_of(blocks)
    for address in addresses:
        of(address).addresses.append(address)
        if address in seen:
            of(address).seen.add(address)
    for block in blocks:
        for way in block.ways:
            if not way.known and way.target is None:
                of(last_of(block)).anywhere.add(last_of(block))
            elif not way.known:
                of(last_of(block)).direct.add((last_of(block), way.target))
    return [found[start] for start in sorted(found)]


def title(function):
    return function.name or "no name"


def function_lines(found):
    """A line for each function: what was seen, the direct ways without a trace, and how many ways have no end."""
    for f in found:
        direct = sorted({target for _, target in f.direct})
        yield (f"function {f.start or f.addresses[0]:08x} {title(f)}: seen {len(f.seen)}, not seen {len(f.addresses) - len(f.seen)}, "
               f"direct without a trace {len(direct)}{': ' + ', '.join(f'{t:08x}' for t in direct) if direct else ''}, returns and indirect {len(f.anywhere)}")


# ---- The page ----

BEGINNING = '<!DOCTYPE html>\n<html lang="en"><head><meta charset="utf-8"><title>Coverage of '
STYLE = """body { font-family: sans-serif; margin: 2em; background: #fff; color: #111 }
table { border-collapse: collapse } td, th { padding: 0.1em 0.8em; text-align: right } td:first-child, th:first-child { text-align: left }
pre { line-height: 1.3 } .seen { background: #d8f3d8 } .unseen { background: #f9dcdc } .way { color: #a00000; font-weight: bold }
pre span[id] { display: inline-block; width: 100% } .block { border-top: 1px solid #777 }"""


def row(f):
    there, whole = len(f.seen), len(f.addresses)
    share = f"{100 * there / whole:.0f}" if whole else "100"
    return (f'<tr><td><a href="#f{f.start:08x}">{html.escape(title(f))}</a></td><td>{there}</td><td>{whole - there}</td><td>{share}</td>'
            f"<td>{len({t for _, t in f.direct})}</td><td>{len(f.anywhere)}</td></tr>")


def line(address, text, is_seen, begins, targets):
    """An instruction, marked as seen or not, with a rule above where a block begins, and its ways that no trace has taken."""
    kind = ("seen" if is_seen else "unseen") + (" block" if begins else "")
    ways = "".join(f' <span class="way">no trace to {t:08x}</span>' for t in targets)
    return f'<span class="{kind}" id="a{address:08x}">{address:08x}  {html.escape(text)}{ways}</span>\n'


def listing(f, texts, starts):
    ways = collections.defaultdict(list)
    for at, target in sorted(f.direct):
        ways[at].append(target)
    lines = (line(a, texts.get(a, ""), a in f.seen, a in starts, ways[a]) for a in f.addresses)
    return f'<h2 id="f{f.start:08x}">{html.escape(title(f))}</h2>\n<pre>{"".join(lines)}</pre>'


def page(name, found, texts, blocks):
    """The page: a table of the functions, and the instructions of each."""
    starts, total = {b.start for b in blocks}, sum(len(f.addresses) for f in found)
    there = sum(len(f.seen) for f in found)
    parts = [
        f"{BEGINNING}{html.escape(name)}</title><style>{STYLE}</style></head><body>",
        f"<h1>Coverage of {html.escape(name)}</h1>",
        f"<p>The traces have seen {there} of {total} instructions, in {len(blocks)} blocks. A line is <span class=\"seen\">seen</span> or "
        '<span class="unseen">not seen</span>, a rule stands above the start of a block, and <span class="way">no trace</span> names the target of a direct '
        "way that leads on to the original. A return and an indirect jump or call have such a way always.</p>",
        "<table><tr><th>function</th><th>seen</th><th>not seen</th><th>percent</th><th>direct without a trace</th><th>returns and indirect</th></tr>",
        *map(row, found), "</table>", *(listing(f, texts, starts) for f in found), "</body></html>"]
    return "\n".join(parts) + "\n"
