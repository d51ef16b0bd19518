#!/usr/bin/env python3
"""Brings the repository's own names in antt to today's spelling, after port.py: run once, at the top, on what port.py left.

Definitions, fields, constructors and lemmas that this repository declares go to snake case (`giveUp` is `give_up`, `sound-kept` is
`sound_kept`), those whose values are facts to camel case (`isNot0` is `IsNot0`). A dash stays where it joins two names of definitions.
A lemma that would have its definition's name gets `_lem`. Names of functions, of goals and of the library stay. Names in pages and
in must-fail edits follow, those that port.py respelled too.
"""
import collections
import re
import sys
from pathlib import Path

TOKEN = re.compile(r"[^\W\d][\w'?]*(?:-[\w'?]+)*")
DECLARED = re.compile(r"^(\s*)((?:(?:abbrev|unfoldable|pub|data|record|ruleset)\s+)*)([^\s:(){}.,;=]+)\s*((?:[({][^:]*:[^)}]*[)}]\s*)*):\s(.*)$")
# What port.py respelled itself, since the library had a word of that spelling: for pages and edits, which it does not read.
BY_PORT = {
    'a-word': 'a_word', 'abs-neg': 'abs_neg', 'addW': 'add_w', 'after-last': 'after_last', 'all-first': 'all_first',
    'all-fit': 'all_fit', 'all-more': 'all_more', 'all-of': 'all_of', 'all-same': 'all_same', 'all-set': 'all_set',
    'among-cases': 'among_cases', 'answerOf': 'answer_of', 'as-before': 'as_before', 'as-one': 'as_one',
    'at-call': 'at_call', 'at-most': 'at_most', 'at-of': 'at_of', 'at-once': 'at_once', 'at-set': 'at_set',
    'below-all': 'below_all', 'best-none': 'best_none', 'bit-not': 'bit_not', 'blockAt': 'block_at',
    'bool-word': 'bool_word', 'both-hold': 'both_hold', 'by-both': 'by_both', 'by-end': 'by_end', 'by-first': 'by_first',
    'by-out': 'by_out', 'by-rows': 'by_rows', 'by-sign': 'by_sign', 'by-value': 'by_value', 'byte-at': 'byte_at',
    'bytes-of': 'bytes_of', 'bytes-shifted': 'bytes_shifted', 'call-ends': 'call_ends', 'called-same': 'called_same',
    'called-stops': 'called_stops', 'cells-of': 'cells_of', 'class-of': 'class_of', 'cleared-more': 'cleared_more',
    'code-inside': 'code_inside', 'codeAt': 'code_at', 'codeOf': 'code_of', 'count-fits': 'count_fits',
    'cut-small': 'cut_small', 'each-at': 'each_at', 'each-of': 'each_of', 'end-kept': 'end_kept', 'end-more': 'end_more',
    'endOf': 'end_of', 'ends-at': 'ends_at', 'ends-so': 'ends_so', 'few-words': 'few_words', 'first-block': 'first_block',
    'first-next': 'first_next', 'first-past': 'first_past', 'fits-below': 'fits_below', 'follows-on': 'follows_on',
    'gives-up': 'gives_up', 'goes-on': 'goes_on', 'goes-over': 'goes_over', 'goes-with': 'goes_with', 'hands-on': 'hands_on',
    'has-room': 'has_room', 'has-words': 'has_words', 'held-of': 'held_of', 'heldOf': 'held_of', 'high-half': 'high_half',
    'if-kept': 'if_kept', 'image-code': 'image_code', 'imageOf': 'image_of', 'in-list': 'in_list', 'in-memory': 'in_memory',
    'in-rest': 'in_rest', 'inWord': 'in_word', 'index-below': 'index_below', 'is-mul': 'is_mul', 'is-whole': 'is_whole',
    'isTaken': 'is_taken', 'isZero': 'is_zero', 'known-is': 'known_is', 'known-more': 'known_more', 'known-of': 'known_of',
    'laid-more': 'laid_more', 'laid-none': 'laid_none', 'leave-own': 'leave_own', 'leave-same': 'leave_same',
    'length-part': 'length_part', 'list-of': 'list_of', 'list-same': 'list_same', 'listFrom': 'list_from',
    'low-half': 'low_half', 'moved-on': 'moved_on', 'nOf': 'n_of', 'narrow-exact': 'narrow_exact', 'no-call': 'no_call',
    'no-code': 'no_code', 'no-more': 'no_more', 'no-place': 'no_place', 'none-below': 'none_below', 'none-left': 'none_left',
    'none-of': 'none_of', 'none-of-two': 'none_of_two', 'not-free': 'not_free', 'not-stopped': 'not_stopped',
    'not-there': 'not_there', 'not-yet': 'not_yet', 'numberOf': 'number_of', 'numbers-fit': 'numbers_fit',
    'numbers-of': 'numbers_of', 'on-same': 'on_same', 'one-less': 'one_less', 'one-more': 'one_more', 'one-on': 'one_on',
    'one-set': 'one_set', 'only-then': 'only_then', 'only-zero': 'only_zero', 'or-else': 'or_else', 'own-same': 'own_same',
    'packed-unpacked′': "packed-unpacked'", 'part-none': 'part_none', 'partOf': 'part_of', 'pass-kept': 'pass_kept',
    'past-cases': 'past_cases', 'perform-kept': 'perform_kept', 'place-of': 'place_of', 'placeOf': 'place_of',
    'placed-below': 'placed_below', 'placed-first': 'placed_first', 'push-at': 'push_at', 'pushed-lined': 'pushed_lined',
    'put-back': 'put_back', 'put-both': 'put_both', 'put-same': 'put_same', 'put-three': 'put_three', 'put-view': 'put_view',
    'putAll': 'put_all', 'queue-long': 'queue_long', 'quiet-none': 'quiet_none', 'ran-on': 'ran_on',
    'range-small': 'range_small', 'read-back': 'read_back', 'read-past': 'read_past', 'read-short': 'read_short',
    'read-taken': 'read_taken', 'readOf': 'read_of', 'regsOf': 'regs_of', 'resultOf': 'result_of', 'row-cut': 'row_cut',
    'row-more': 'row_more', 'rows-cut': 'rows_cut', 'rows-then': 'rows_then', 'runs-on': 'runs_on',
    'same-answer': 'same_answer', 'same-at': 'same_at', 'same-body': 'same_body', 'same-byte': 'same_byte',
    'same-check': 'same_check', 'same-code': 'same_code', 'same-head': 'same_head', 'same-kept': 'same_kept',
    'same-known': 'same_known', 'same-line': 'same_line', 'same-read': 'same_read', 'same-set': 'same_set',
    'same-word': 'same_word', 'says-all': 'says_all', 'set-keeps': 'set_keeps', 'set-other': 'set_other',
    'set-past': 'set_past', 'set-self': 'set_self', 'shifted-at': 'shifted_at', 'size-fits': 'size_fits',
    'size-of': 'size_of', 'slice-kept': 'slice_kept', 'slice-over': 'slice_over', 'small-at': 'small_at',
    'small-count': 'small_count', 'small-same': 'small_same', 'some-bytes': 'some_bytes', 'stands-of': 'stands_of',
    'started-none': 'started_none', 'stays-on': 'stays_on', 'step-same': 'step_same', 'steps-on': 'steps_on',
    'stops-so': 'stops_so', 'stores-at': 'stores_at', 'sum-both': 'sum_both', 'sum-first': 'sum_first',
    'sum-fits': 'sum_fits', 'sum-less': 'sum_less', 'sum-more': 'sum_more', 'sum-same': 'sum_same', 'sumTo': 'sum_to',
    'taken-of': 'taken_of', 'then-if': 'then_if', 'then-same': 'then_same', 'told-of': 'told_of', 'top-kept': 'top_kept',
    'turn-more': 'turn_more', 'turn-one': 'turn_one', 'turned-on': 'turned_on', 'with-code': 'with_code',
    'withRegs': 'with_regs', 'withTop': 'with_top', 'word-of': 'word_of', 'word-sum': 'word_sum', 'wordAt': 'word_at',
    'wordIn': 'word_in', 'wordOf': 'word_of', 'words-of': 'words_of', 'written-same': 'written_same', 'w′': "w'",
}
# Facts, by hand: values of a type of facts.
FACTS = {'isNot0': 'IsNot0', 'isReasonOrFault': 'IsReasonOrFault'}
WORDS = {'length', 'set', 'take', 'drop', 'get', 'sum', 'map', 'append', 'replicate', 'min', 'max', 'mod', 'div'}


def snake(name):
    name = re.sub(r'(?<=[a-z0-9])(?=[A-Z])', '_', name)
    return name.lower() if name[0].islower() else name


class Names:
    """The names that the crates declare, and the new spelling of each."""

    def __init__(self, root):
        self.root, self.declared, self.specs = root, collections.defaultdict(set), set()
        for path in self.files():
            for line in path.read_text('utf-8').split('\n'):
                found = DECLARED.match(line)
                if not found or line.lstrip().startswith('--'):
                    continue
                name, kind = found.group(3), found.group(5)
                if path.name == 'Proof.antt' and (kind.startswith('tie.') or name.endswith(('-spec', '_spec'))):
                    continue
                self.declared[name].add(path)
                if '/specs/' in str(path):
                    self.specs.add(name)
        self.new = {}
        taken = {name for name in self.declared if self.spelled(name) == name}
        for name in sorted(self.declared, key=lambda n: (n not in self.specs, n)):
            to = self.spelled(name)
            if to == name:
                continue
            if to in taken and name in self.specs and to not in self.specs:
                self.new[to] = to + '_lem'
                taken.add(to + '_lem')
            while to in taken and self.new.get(to) != to + '_lem':
                to += '_lem'
            taken.add(to)
            self.new[name] = to

    def files(self):
        return sorted(p for p in (self.root / 'crates').rglob('*.antt') if 'out' not in p.parts)

    def spelled(self, name):
        if name in FACTS:
            return FACTS[name]
        if not TOKEN.fullmatch(name) or name[0].isupper():
            return name
        parts = name.split('-')
        if len(parts) == 2 and all(part in self.specs or part in WORDS for part in parts):
            return '-'.join(snake(part) for part in parts)
        return snake('_'.join(parts))


def library_names(text, crates):
    """The names that a file brings in from the library, and the library's modules by their name here."""
    names, modules = set(), set()
    for found in re.finditer(r'^(?:ghost )?use ([\w.·-]+?)(?:\.\{([^}]*)\})?(?: as (\w+))?;?$', text, re.M):
        path, items, alias = found.groups()
        first = re.split(r'[.·]', path)
        if first[0] == 'Rattle' and len(first) > 1 and first[1] in crates:
            continue
        if items is not None:
            names.update(item.strip().split(' as ')[0] for item in items.split(','))
        modules.add(alias or path.split('.')[-1])
    return names, modules


def renamed(text, new, skip=(), modules=(), only=None, own=()):
    def at(found):
        name = found.group(0)
        if name not in new or name in skip or (only and not only(name)):
            return name
        before = text[:found.start()]
        if before.endswith('.'):
            head = re.search(r"([\w'-]+)\.$", before)
            if head and (head.group(1) in modules or head.group(1) == 'tie' or new[name] == name + '_lem' and head.group(1) not in own):
                return name
        return new[name]
    return TOKEN.sub(at, text)


def in_ticks(text, new):
    return re.sub(r'`[^`\n]*`', lambda f: renamed(f.group(0), new), text)


def camel(name):
    return '-' not in name and re.search('[a-z0-9][A-Z]', name)


def main():
    root = Path(sys.argv[1] if len(sys.argv) > 1 else '.').resolve()
    crates = {p.name for p in (root / 'crates').iterdir()}
    names = Names(root)
    for path in names.files():
        text = path.read_text('utf-8')
        skip, modules = library_names(text, crates)
        own = set(re.findall(r'^use Rattle\.[\w.-]+ as (\w+)$', text, re.M)) - modules
        lines = []
        for line in text.split('\n'):
            code, dashes, comment = line.partition('--') if line.lstrip().startswith('--') or ' -- ' in line else (line, '', '')
            lines.append(renamed(code, names.new, skip, modules, own=own) + dashes + in_ticks(renamed(comment, names.new, only=camel), names.new))
        path.write_text('\n'.join(lines), 'utf-8')
    for path in sorted((root / 'crates').rglob('*.rt')):
        text = path.read_text('utf-8')
        skip, modules = library_names(text, crates)
        lines = []
        for line in text.split('\n'):
            ghost = re.match(r'\s*(ghost |ensures|requires|invariant)', line)
            lines.append(renamed(line, names.new, skip, modules, None if ghost else camel))
        path.write_text('\n'.join(lines), 'utf-8')
    old = dict(names.new) | {name: names.new.get(to, to) for name, to in BY_PORT.items()}
    for path in sorted((root / 'crates').rglob('*.edit')):
        path.write_text(edited(path.read_text('utf-8'), old), 'utf-8')
    for path in [root / 'README.md', *sorted((root / 'docs').rglob('*.md'))]:
        path.write_text(in_ticks(path.read_text('utf-8'), old), 'utf-8')
    for name in sorted(names.new):
        print(f'{name} -> {names.new[name]}')


def edited(text, old):
    """An edit file: its names in antt, and in contracts; Rust's own names stay."""
    lines, file = [], ''
    for line in text.split('\n'):
        if line.startswith('file: '):
            file = line
        if line.startswith('refused: theorem '):
            line = renamed(line, old)
        elif line.startswith(('old:', 'new:')):
            line = line[:4] + renamed(line[4:], old, only=camel if file.endswith('.rt') else None)
        elif not line.startswith(('file: ', 'wrong: ', 'refused: ')):
            line = in_ticks(line, old)
        lines.append(line)
    return '\n'.join(lines)


if __name__ == '__main__':
    main()
