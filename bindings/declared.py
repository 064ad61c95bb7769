"""What the library, the header and the Rust crate declare, read from their texts into the same forms. A text that has another form
than is known here is Unreadable: nothing is passed over."""
import re
from typing import NamedTuple, Optional


class Unreadable(Exception):
    pass


class Parameter(NamedTuple):
    """A list is two of these: the pointer and its length."""
    name: str
    type: str                     # as Rust names it
    way: str                      # '' for a number, const or mut for a pointer
    size: Optional[int]           # of an array


class Function(NamedTuple):
    parameters: tuple
    result: str


TYPES = {'uint8_t': 'u8', 'uint16_t': 'u16', 'uint32_t': 'u32', 'uint64_t': 'u64', 'size_t': 'usize', 'bool': 'bool'}


def known(name):
    if name not in TYPES.values():
        raise Unreadable('type %s' % name)
    return name


def value_of(text, names):
    """Of a sum or product of numbers and names."""
    if not re.fullmatch(r'[\w +*()-]+', text):
        raise Unreadable('value %s' % text)
    try:
        return eval(text, {'__builtins__': {}}, names)
    except (NameError, SyntaxError, TypeError):
        raise Unreadable('value %s' % text)


def matched(pattern, text, what):
    m = re.fullmatch(pattern, text, re.S)
    if not m:
        raise Unreadable('%s: %s' % (what, ' '.join(text.split())))
    return m


def parts(text):
    return [' '.join(part.split()) for part in text.split(',') if part.strip()]


def once(pattern, text, what):
    found = re.findall(pattern, text, re.S | re.M)
    if len(found) != 1:
        raise Unreadable('%s stands %d times' % (what, len(found)))
    return found[0]


# ---- the library
def library_constants(text):
    return re.findall(r'^(?:pub(?:\(crate\))? )?const (\w+): \w+ = (\w+);', text, re.M)


def library_parameters(text, sizes):
    m = matched(r'(\w+): (&mut |&)?(?:(\w+)|\[(\w+)\]|\[(\w+); ([^]]+)\])', text, 'parameter')
    name, reference, plain, slice_of, array_of, size = m.groups()
    way = {None: '', '&': 'const', '&mut ': 'mut'}[reference]
    if slice_of and way:
        return [Parameter(name, known(slice_of), way, None), Parameter(name + '_len', 'usize', '', None)]
    if array_of and way:
        return [Parameter(name, known(array_of), way, value_of(size, sizes))]
    return [Parameter(name, known(plain), way, None)]


def library_functions(text, sizes):
    text = re.sub(r'//.*', '', text)
    found = re.findall(r'#\[unsafe\(no_mangle\)\]\s*pub extern "C" fn (\w+)\(([^)]*)\) -> (\w+)\s', text)
    if not len(found) == text.count('no_mangle') == text.count('extern'):
        raise Unreadable('%d of %d exported functions can be read' % (len(found), text.count('no_mangle')))
    return {name: Function(tuple(p for part in parts(listed) for p in library_parameters(part, sizes)), known(result))
            for name, listed, result in found}


def library_causes(text, enum, prefix):
    """Number and whether a value stands beside it, by name."""
    listed = once(r'^pub enum %s \{\n(.*?)^\}' % enum, text, 'enum ' + enum)
    valued = {m[1]: bool(m[2]) for m in (matched(r'(\w+)(\(usize\))?', part, 'cause') for part in parts(listed))}
    body = once(r'^    pub fn number\(.*?^    \{\n(.*?)^    \}', text, 'number')
    numbers = dict(re.findall(r'^ +%s::(\w+)(?:\(_\))? => (\d+),$' % enum, body, re.M))
    if set(numbers) != set(valued):
        raise Unreadable('enum %s has other causes than numbers' % enum)
    return {prefix + name: (int(numbers[name]), valued[name]) for name in valued}


# ---- the header
class Header:
    """Its functions, numbers by name (macros and enumerators), texts by name and the stack that each call is said to take."""

    def __init__(self, text):
        self.stack = self.stacks(text)
        text = re.sub(r'/\*.*?\*/', '', text, flags=re.S)
        self.numbers = {}
        for name, value in re.findall(r'^#define (\w+) (.+)$', text, re.M):
            self.numbers[name] = value_of(value, self.numbers)
        text = re.sub(r'^#.*$', '', text, flags=re.M)
        inline = r'^static inline const char \*relay_text\(uint32_t number\)\n\{\n +switch \(number\) \{\n(.*?)^ +\}\n\}\n'
        self.texts = self.cases(once(inline, text, 'relay_text'))
        text = re.sub(inline, '', text, flags=re.S | re.M)
        once(r'^extern "C" \{$', text, 'extern "C"')
        text = text.replace('extern "C" {', '')
        for listed in re.findall(r'\benum \{([^}]*)\};', text):
            for part in parts(listed):
                m = matched(r'(\w+) = (\w+)', part, 'enumerator')
                if m[1] in self.numbers:
                    raise Unreadable('%s stands twice' % m[1])
                self.numbers[m[1]] = value_of(m[2], self.numbers)
        *prototypes, end = re.sub(r'\benum \{[^}]*\};', '', text).split(';')
        matched(r'\s*\}\s*', end, 'after the prototypes')
        self.functions = {}
        for prototype in prototypes:
            m = matched(r'\s*(\w+)\s+(\w+)\(([^)]*)\)', prototype, 'prototype')
            listed = [] if m[3] == 'void' else [self.parameter(part) for part in parts(m[3])]
            if m[2] in self.functions:
                raise Unreadable('%s stands twice' % m[2])
            self.functions[m[2]] = Function(tuple(listed), self.type(m[1]))

    @staticmethod
    def type(name):
        if name not in TYPES:
            raise Unreadable('type %s' % name)
        return TYPES[name]

    def parameter(self, text):
        m = matched(r'(const )?(\w+) (\*?)(\w+)(?:\[(\w+)\])?', text, 'parameter')
        constant, name, star, called, size = m.groups()
        if not star and not size:
            if constant:
                raise Unreadable('parameter: ' + text)
            return Parameter(called, self.type(name), '', None)
        if star and size:
            raise Unreadable('parameter: ' + text)
        return Parameter(called, self.type(name), 'const' if constant else 'mut', value_of(size, self.numbers) if size else None)

    @staticmethod
    def cases(text):
        found, lines = {}, text.strip().split('\n')
        for line in lines[:-1]:
            m = matched(r' *case (\w+): return "([^"\\]+)";', line, 'case')
            if m[1] in found:
                raise Unreadable('%s has two texts' % m[1])
            found[m[1]] = m[2]
        matched(r' *default: return "[^"\\]+";', lines[-1], 'default')
        return found

    @staticmethod
    def stacks(text):
        found = {}
        for comment, name in re.findall(r'/\*((?:(?!\*/).)*)\*/\n\w+ (\w+)\(', text, re.S):
            found[name] = int(once(r'Stack: (?:about|less\s+than) (\d+) kB\.', ' '.join(comment.split()), 'the stack of ' + name))
        return found


def measured_stacks(text):
    """What bindings/stack.c takes as stated."""
    return {name: int(stated) for name, stated in re.findall(r'^ +\{"(\w+)", (\d+), \w+\},$', text, re.M)}


# ---- the Rust crate
def rust_constants(text):
    found = dict(re.findall(r'^pub const (\w+): \w+ = (\w+);$', text, re.M))
    if len(found) != len(re.findall(r'\bconst [A-Z]', text)):
        raise Unreadable('a constant of lib.rs')
    return {name: value_of(value, {}) for name, value in found.items()}


def rust_parameter(text, sizes):
    m = matched(r'(\w+): (?:\*(const|mut) )?(?:(\w+)|\[(\w+); (\w+)\])', text, 'parameter')
    name, way, plain, array_of, size = m.groups()
    if array_of and way:
        return Parameter(name, known(array_of), way, value_of(size, sizes))
    return Parameter(name, known(plain), way or '', None)


def rust_functions(text, sizes):
    block = once(r'^extern "C" \{\n(.*?)^\}', re.sub(r'//.*', '', text), 'extern "C"')
    function = r'pub fn (\w+)\(([^)]*)\) -> (\w+);'
    matched(r'\s*', re.sub(function, '', block), 'beside the functions')
    found = re.findall(function, block)
    if len(found) != len({name for name, _, _ in found}):
        raise Unreadable('a function of raw.rs stands twice')
    return {name: Function(tuple(rust_parameter(part, sizes) for part in parts(listed)), known(result))
            for name, listed, result in found}


class Refusals:
    """Of refusal.rs: number and whether a value stands beside it, by name; what a number becomes; and the texts."""

    def __init__(self, text):
        text = re.sub(r'///.*', '', text)
        listed = once(r'^pub enum Refusal \{\n(.*?)^\}', text, 'enum Refusal').replace('Other(u32, usize),', '')
        valued = {m[1]: bool(m[2]) for m in (matched(r'(\w+)(\(usize\))?', part, 'case') for part in parts(listed))}
        numbers = {name: int(number) for name, number in re.findall(r'^ +Refusal::(\w+)(?:\(_\))? => (\d+),$', text, re.M)}
        if set(numbers) != set(valued):
            raise Unreadable('refusal.rs has other cases than numbers')
        self.causes = {name: (numbers[name], valued[name]) for name in valued}
        self.made = {m[2]: (int(m[0]), m[1] != '0' and m[3] == '(%s)' % m[1])
                     for m in re.findall(r'^ +\((\d+), (\w+)\) => Refusal::(\w+)(\(\w+\))?,$', text, re.M)}
        shown = re.findall(r'^ +Refusal::(\w+)(?:\(\w+\))? => (?:\{\s+)?write!\(f, "([^"\\]+)"\)', text, re.M)
        self.texts = {name: re.sub(r'\{\w+\}', '{}', said) for name, said in shown}
