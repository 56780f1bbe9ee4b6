#!/usr/bin/env python3
"""Works out what small XMTC programs can give, over all interleavings of their threads.

usage: checks/interleavings.py FILE

It has the language's meaning from docs/LANGUAGE.md by itself, and takes nothing from the toolchain: each read, write and
add of a shared place is one step, and any thread may take the next one. A thread at a trap stays there while the others go
on, so each of their traps may be told too. Steps on a thread's own variables, and reads of what no thread of the section
writes, meet nothing: they are taken at once. checks/thread_rows.py compares rows of tests with it.
"""
import pathlib
import random
import re
import sys

TOKEN = re.compile(
    r'\s+|//[^\n]*|/\*.*?\*/|(?P<text>"(?:\\.|[^"\\])*")|(?P<number>0[xX][0-9a-fA-F]+|\d+)|(?P<name>[A-Za-z_]\w*)'
    r"|(?P<sign><<=|>>=|\+\+|--|&&|\|\||<<|>>|<=|>=|==|!=|[-+*/%&|^]=|[-+*/%<>=!~&|^?:;,(){}\[\]$])", re.S)
LEVELS = [["||"], ["&&"], ["|"], ["^"], ["&"], ["==", "!="], ["<", "<=", ">", ">="], ["<<", ">>"], ["+", "-"], ["*", "/", "%"]]
UPDATES = {"+=", "-=", "*=", "/=", "%=", "&=", "|=", "^=", "<<=", ">>="}
ESCAPES = {"n": "\n", "t": "\t", "\\": "\\", '"': '"'}
DEEPEST = 256
WRITES = ("add", "store", "store word")


def wrapped(value):
    return (value + 2**31) % 2**32 - 2**31


def tokens_of(source):
    """Gives the tokens as (kind, text, line)."""
    at, line, found = 0, 1, []
    while at < len(source):
        match = TOKEN.match(source, at)
        if not match:
            raise SyntaxError(f"line {line}: {source[at:at + 20]!r}")
        if match.lastgroup:
            found.append((match.lastgroup, match.group(), line))
        line += match.group().count("\n")
        at = match.end()
    found.append(("end", "", line))
    return found


class Trap(Exception):
    """A thread's step that ends the run."""


class Program:
    """A program as code for a machine with a stack, made by descent.

    code: instructions as tuples, all functions and blocks behind one another.
    memory: the first values of shared words; a local that a block uses has a word of its own too.
    """

    def __init__(self, source):
        self.tokens, self.at = tokens_of(source), 0
        self.code, self.memory, self.globals, self.functions = [], [], {}, {}
        self.scopes, self.loops = [], []
        self.slots, self.in_block = 0, False
        while self.peek() != "":
            self.declaration()

    # Tokens.
    def peek(self):
        return self.tokens[self.at][1]

    def line(self):
        return self.tokens[self.at][2]

    def take(self, wanted=None):
        kind, text, line = self.tokens[self.at]
        if wanted is not None and text != wanted:
            raise SyntaxError(f"line {line}: {text!r} for {wanted!r}")
        self.at += 1
        return text

    def takes(self, wanted):
        if self.peek() == wanted:
            self.at += 1
            return True
        return False

    def put(self, *instruction):
        self.code.append(list(instruction))
        return len(self.code) - 1

    # Declarations of the file.
    def declaration(self):
        while self.peek() in ("const", "volatile"):
            self.take()
        if self.peek() in ("int", "void", "psBaseReg"):
            self.take()
        while True:
            name = self.take()
            if self.peek() == "(":
                return self.function(name)
            self.variable(name)
            if not self.takes(","):
                return self.take(";")

    def constant(self):
        sign = -1 if self.takes("-") else 1
        return wrapped(sign * int(self.take(), 0))

    def variable(self, name):
        length, values = 0, [0]
        if self.takes("["):
            length = 0 if self.peek() == "]" else self.constant()
            self.take("]")
            values = [0] * length
        if self.takes("="):
            if self.takes("{"):
                given = []
                while not self.takes("}"):
                    given.append(self.constant())
                    self.takes(",")
                length = length or len(given)
                values = given + [0] * (length - len(given))
            else:
                values = [self.constant()]
        self.globals[name] = ("array" if length else "word", len(self.memory), length)
        self.memory += values

    def function(self, name):
        self.take("(")
        scope, self.slots = {}, 0
        while not self.takes(")"):
            self.take("int")
            scope[self.take()] = ("own", self.new_slot(), 0)
            self.takes(",")
        self.functions[name] = (len(self.code), len(scope))
        self.scopes = [scope]
        self.take("{")
        self.statements()
        self.put("number", 0)
        self.put("return")

    def new_slot(self):
        self.slots += 1
        return self.slots - 1

    # Statements.
    def statements(self):
        while not self.takes("}"):
            self.statement()

    def scoped(self, body):
        self.scopes.append({})
        body()
        self.scopes.pop()

    def statement(self):
        word = self.peek()
        if self.takes("{"):
            self.scoped(self.statements)
        elif word == "int":
            self.locals()
        elif word in ("if", "while", "do", "for", "spawn", "printf", "ps", "psm", "return", "break", "continue"):
            self.take()
            getattr(self, "on_" + word)()
        elif not self.takes(";"):
            self.expression()
            self.put("drop")
            self.take(";")

    def locals(self):
        self.take("int")
        while True:
            name = self.take()
            if self.takes("="):
                self.expression()
            else:
                self.put("number", 0)
            if self.in_block or not self.shares_locals():
                place = ("own", self.new_slot(), 0)
            else:
                place = ("word", len(self.memory), 0)
                self.memory.append(0)
            self.scopes[-1][name] = place
            self.store(place)
            self.put("drop")
            if not self.takes(","):
                return self.take(";")

    def shares_locals(self):
        """Whether a block may use the locals of this function, which then stand in shared words: of main alone."""
        return list(self.functions)[-1] == "main"

    def condition(self):
        self.take("(")
        self.expression()
        self.take(")")

    def on_if(self):
        self.condition()
        skip = self.put("unless", None)
        self.scoped(self.statement)
        if self.takes("else"):
            over = self.put("go", None)
            self.code[skip][1] = len(self.code)
            self.scoped(self.statement)
            skip = over
        self.code[skip][1] = len(self.code)

    def loop(self, again, body):
        """Puts a loop's body; gives the jumps to its end, and answers those that go on."""
        self.loops.append(([], []))
        self.scoped(body)
        ends, goes_on = self.loops.pop()
        for jump in goes_on:
            self.code[jump][1] = again if again is not None else len(self.code)
        return ends

    def on_while(self):
        top = len(self.code)
        self.condition()
        skip = self.put("unless", None)
        ends = self.loop(top, self.statement)
        self.put("go", top)
        for jump in ends + [skip]:
            self.code[jump][1] = len(self.code)

    def on_do(self):
        top = len(self.code)
        ends = self.loop(None, self.statement)
        self.take("while")
        self.condition()
        self.take(";")
        self.put("unless", len(self.code) + 2)
        self.put("go", top)
        for jump in ends:
            self.code[jump][1] = len(self.code)

    def on_for(self):
        self.scopes.append({})
        self.take("(")
        if self.peek() == "int":
            self.locals()
        else:
            self.optional(";")
        top = len(self.code)
        skip = None
        if self.peek() != ";":
            self.expression()
            skip = self.put("unless", None)
        self.take(";")
        third = self.at
        depth = 0
        while depth or self.peek() != ")":
            depth += {"(": 1, ")": -1}.get(self.take(), 0)
        self.take(")")
        ends = self.loop(None, self.statement)
        after, self.at = self.at, third
        self.optional(")")
        self.at = after
        self.put("go", top)
        for jump in ends + ([] if skip is None else [skip]):
            self.code[jump][1] = len(self.code)
        self.scopes.pop()

    def optional(self, closing):
        if self.peek() != closing:
            self.expression()
            self.put("drop")
        self.take(closing)

    def on_break(self):
        self.loops[-1][0].append(self.put("go", None))
        self.take(";")

    def on_continue(self):
        self.loops[-1][1].append(self.put("go", None))
        self.take(";")

    def on_return(self):
        if self.peek() == ";":
            self.put("number", 0)
        else:
            self.expression()
        self.take(";")
        self.put("return")

    def on_spawn(self):
        if not self.shares_locals():
            raise SyntaxError(f"line {self.line()}: a spawn outside main, which this model doesn't have")
        self.take("(")
        self.expression()
        self.take(",")
        self.expression()
        self.take(")")
        spawn = self.put("spawn", None)
        self.in_block, slots, self.slots = True, self.slots, 0
        self.take("{")
        self.scoped(self.statements)
        self.put("end")
        self.in_block, self.slots = False, slots
        self.code[spawn][1] = len(self.code)

    def on_printf(self):
        self.take("(")
        text = re.sub(r"\\(.)", lambda match: ESCAPES[match.group(1)], self.take()[1:-1])
        count = 0
        while self.takes(","):
            self.expression()
            count += 1
        self.take(")")
        self.take(";")
        self.put("print", text, count)

    def on_ps(self):
        self.prefix_sum(True)

    def on_psm(self):
        self.prefix_sum(False)

    def prefix_sum(self, is_narrow):
        line = self.tokens[self.at - 1][2]
        self.take("(")
        variable = self.place(self.take())
        self.take(",")
        name = self.take()
        kind, base, length = self.place(name)
        if kind == "array":
            self.take("[")
            self.expression()
            self.take("]")
            self.put("index", length, line)
        elif kind == "word":
            self.put("number", 0)
        self.load(variable)
        if is_narrow:
            self.put("narrow", line)
        if kind == "own":
            self.put("add own", base)
        else:
            self.put("add", base)
        self.store(variable)
        self.put("drop")
        self.take(")")
        self.take(";")

    # Places.
    def place(self, name):
        for scope in reversed(self.scopes):
            if name in scope:
                return scope[name]
        return self.globals[name]

    def load(self, place):
        kind, base, _ = place
        if kind == "own":
            self.put("own", base)
        elif kind == "word":
            self.put("number", 0)
            self.put("load", base)
        else:
            self.put("load", base)

    def store(self, place):
        """Stores the top of the stack, which stays; under it lies the index, of an array alone."""
        kind, base, _ = place
        if kind == "own":
            self.put("set own", base)
        else:
            self.put("store word" if kind == "word" else "store", base)

    # Expressions.
    def expression(self):
        start, size = self.at, len(self.code)
        if self.tokens[self.at][0] == "name" and self.tokens[self.at + 1][1] != "(":
            line = self.line()
            place = self.indexed(self.take())
            sign = self.peek()
            if sign == "=":
                self.take()
                self.expression()
                return self.store(place)
            if sign in UPDATES:
                self.take()
                if place[0] == "array":
                    self.put("again")
                self.load(place)
                self.expression()
                self.put("binary", sign[:-1], line)
                return self.store(place)
            self.at = start
            del self.code[size:]
        self.choice()

    def indexed(self, name):
        line = self.tokens[self.at - 1][2]
        place = self.place(name)
        if place[0] == "array":
            self.take("[")
            self.expression()
            self.take("]")
            self.put("index", place[2], line)
        return place

    def choice(self):
        self.level(0)
        if self.takes("?"):
            skip = self.put("unless", None)
            self.expression()
            over = self.put("go", None)
            self.take(":")
            self.code[skip][1] = len(self.code)
            self.choice()
            self.code[over][1] = len(self.code)

    def level(self, number):
        if number == len(LEVELS):
            return self.signed()
        line = self.line()
        self.level(number + 1)
        while self.peek() in LEVELS[number]:
            sign = self.take()
            if sign in ("&&", "||"):
                self.put("truth")
                self.put("again")
                skip = self.put("unless" if sign == "&&" else "where", None)
                self.put("drop")
                self.level(number + 1)
                self.put("truth")
                self.code[skip][1] = len(self.code)
            else:
                self.level(number + 1)
                self.put("binary", sign, line)

    def signed(self):
        sign = self.peek()
        if sign in ("-", "+", "!", "~"):
            self.take()
            self.signed()
            self.put("unary", sign)
        elif sign in ("++", "--"):
            self.take()
            self.step(self.indexed(self.take()), sign, True)
        else:
            self.primary()

    def step(self, place, sign, is_before):
        if place[0] == "array":
            self.put("again")
        self.load(place)
        self.put("number", 1)
        self.put("binary", sign[0], 0)
        self.store(place)
        if not is_before:
            self.put("number", 1)
            self.put("binary", "-" if sign == "++" else "+", 0)

    def primary(self):
        kind, text, line = self.tokens[self.at]
        self.take()
        if text == "(":
            self.expression()
            self.take(")")
        elif text == "$":
            self.put("dollar")
        elif kind == "number":
            self.put("number", wrapped(int(text, 0)))
        elif self.peek() == "(":
            self.call(text, line)
        else:
            place = self.indexed(text)
            if self.peek() in ("++", "--"):
                self.step(place, self.take(), False)
            else:
                self.load(place)

    def call(self, name, line):
        self.take("(")
        count = 0
        while not self.takes(")"):
            self.expression()
            self.takes(",")
            count += 1
        self.put("call", name, count, line)


def quotient(left, right):
    value = abs(left) // abs(right)
    return value if (left < 0) == (right < 0) else -value


def computed(sign, left, right, line):
    if sign in "/%" and right == 0:
        raise Trap("DivideByZero", line)
    return wrapped({
        "+": lambda: left + right, "-": lambda: left - right, "*": lambda: left * right,
        "/": lambda: quotient(left, right), "%": lambda: left - right * quotient(left, right),
        "<<": lambda: left << (right & 31), ">>": lambda: left >> (right & 31),
        "&": lambda: left & right, "|": lambda: left | right, "^": lambda: left ^ right,
        "==": lambda: left == right, "!=": lambda: left != right, "<": lambda: left < right,
        "<=": lambda: left <= right, ">": lambda: left > right, ">=": lambda: left >= right}[sign]() + 0)


class Thread:
    """A thread between two steps: where it is, its stack, its own variables, and the callers' of both."""

    def __init__(self, at, dollar, stack=(), own=(), callers=()):
        self.at, self.dollar, self.stack, self.own, self.callers = at, dollar, list(stack), dict(own), list(callers)

    def key(self):
        return (self.at, self.dollar, tuple(self.stack), tuple(sorted(self.own.items())), tuple(self.callers))

    @staticmethod
    def of(key):
        return Thread(*key)


class Machine:
    """What a program's steps do."""

    def __init__(self, program):
        self.program = program
        self.code = program.code

    def run(self, thread, memory, written, is_serial):
        """Takes a thread's own steps, up to one that meets another thread's, to a spawn, a print, its end, or a trap."""
        while True:
            word, *rest = self.code[thread.at]
            if word in ("print", "spawn", "end") or (word in WRITES and not is_serial):
                return word
            if word == "load" and not is_serial and rest[0] + thread.stack[-1] in written:
                return word
            if word == "return" and not thread.callers:
                return word
            self.step(thread, memory)

    def step(self, thread, memory):
        word, *rest = self.code[thread.at]
        stack, own = thread.stack, thread.own
        thread.at += 1
        if word == "number":
            stack.append(rest[0])
        elif word == "dollar":
            stack.append(thread.dollar)
        elif word == "own":
            stack.append(own[rest[0]])
        elif word == "set own":
            own[rest[0]] = stack[-1]
        elif word == "add own":
            old = own[rest[0]]
            own[rest[0]] = wrapped(old + stack[-1])
            stack[-1] = old
        elif word == "load":
            stack[-1] = memory[rest[0] + stack[-1]]
        elif word == "store word":
            memory[rest[0]] = stack[-1]
        elif word == "store":
            value = stack.pop()
            memory[rest[0] + stack[-1]] = value
            stack[-1] = value
        elif word == "add":
            value = stack.pop()
            address = rest[0] + stack[-1]
            stack[-1] = memory[address]
            memory[address] = wrapped(memory[address] + value)
        elif word == "drop":
            stack.pop()
        elif word == "again":
            stack.append(stack[-1])
        elif word == "truth":
            stack[-1] = int(stack[-1] != 0)
        elif word == "index":
            if not 0 <= stack[-1] < rest[0]:
                raise Trap("Index", rest[1])
        elif word == "narrow":
            if stack[-1] not in (0, 1):
                raise Trap("PsIncrement", rest[0])
        elif word == "binary":
            right = stack.pop()
            stack[-1] = computed(rest[0], stack[-1], right, rest[1])
        elif word == "unary":
            value = stack[-1]
            stack[-1] = wrapped({"-": -value, "+": value, "!": int(value == 0), "~": ~value}[rest[0]])
        elif word == "go":
            thread.at = rest[0]
        elif word == "unless":
            if stack.pop() == 0:
                thread.at = rest[0]
        elif word == "where":
            if stack.pop() != 0:
                thread.at = rest[0]
        elif word == "call":
            self.call(thread, *rest)
        elif word == "return":
            value = stack.pop()
            thread.at, stack_before, own_before = thread.callers.pop()
            thread.stack, thread.own = list(stack_before) + [value], dict(own_before)
        else:
            raise ValueError(word)

    def call(self, thread, name, count, line):
        if len(thread.callers) == DEEPEST:
            raise Trap("CallDepth", line)
        values = thread.stack[len(thread.stack) - count:]
        del thread.stack[len(thread.stack) - count:]
        thread.callers.append((thread.at, tuple(thread.stack), tuple(sorted(thread.own.items()))))
        thread.at, thread.stack, thread.own = self.program.functions[name][0], [], dict(enumerate(values))

    def written(self, first, last):
        """The words that the code from first to last writes, functions included that it may call."""
        found, seen, todo = set(), set(), [(first, last)]
        starts = sorted(at for at, _ in self.program.functions.values()) + [len(self.code)]
        lengths = {base: max(length, 1) for _, base, length in self.program.globals.values()}
        while todo:
            begin, end = todo.pop()
            for word, *rest in self.code[begin:end]:
                if word in WRITES:
                    found.update(range(rest[0], rest[0] + lengths.get(rest[0], 1)))
                if word == "call" and rest[0] not in seen:
                    seen.add(rest[0])
                    at = self.program.functions[rest[0]][0]
                    todo.append((at, starts[starts.index(at) + 1]))
        return found


def section(machine, memory, first, last, low, high, pick):
    """Answers the memories with which a section may end, and the traps that it may tell."""
    written = machine.written(first, last)
    ends, traps = set(), set()

    def settled(thread, memory):
        """Runs it to its next shared step: its key, or nothing where it has ended; a trap stays where it is."""
        try:
            return None if machine.run(thread, memory, written, False) == "end" else thread.key()
        except Trap as trap:
            traps.add(trap.args + (f"thread {thread.dollar}",))
            return "trap"

    threads = [settled(Thread(first, number), list(memory)) for number in range(low, high + 1)]
    start = (tuple(memory), tuple(key for key in threads if key is not None))
    todo, seen = [start], {start}
    while todo:
        memory, threads = todo.pop()
        if not threads:
            ends.add(memory)
        moving = [at for at, key in enumerate(threads) if key != "trap"]
        for at in pick(moving):
            words, thread = list(memory), Thread.of(threads[at])
            machine.step(thread, words)
            key = settled(thread, words)
            others = threads[:at] + (() if key is None else (key,)) + threads[at + 1:]
            state = (tuple(words), others)
            if state not in seen:
                seen.add(state)
                todo.append(state)
    return ends, traps


def results(source, pick=lambda moving: moving):
    """The (output, error line) pairs that a source may give."""
    program = Program(source)
    machine = Machine(program)
    found = set()
    start = (Thread(program.functions["main"][0], 0).key(), tuple(program.memory), "")
    todo, seen = [start], {start}
    while todo:
        key, memory, output = todo.pop()
        thread, words = Thread.of(key), list(memory)
        try:
            word = machine.run(thread, words, set(), True)
        except Trap as trap:
            found.add((output, "xmt: trap {} line {} serial\n".format(*trap.args)))
            continue
        if word == "return":
            found.add((output, ""))
            continue
        rest = machine.code[thread.at][1:]
        if word == "print":
            values = tuple(thread.stack[len(thread.stack) - rest[1]:])
            del thread.stack[len(thread.stack) - rest[1]:]
            thread.at += 1
            after = [(thread.key(), tuple(words), output + rest[0] % values)]
        else:
            high, low = thread.stack.pop(), thread.stack.pop()
            first, thread.at = thread.at + 1, rest[0]
            ends, traps = section(machine, words, first, rest[0], low, high, pick)
            for trap in traps:
                found.add((output, "xmt: trap {} line {} {}\n".format(*trap)))
            after = [(thread.key(), end, output) for end in ends]
        for state in after:
            if state not in seen:
                seen.add(state)
                todo.append(state)
    return found


def answers(source, is_sampled):
    """The outputs and the error lines of a source, each sorted, and the output before a fault."""
    if is_sampled:
        found = results(source, lambda moving: moving[:1]) | results(source, lambda moving: moving[-1:])
        for seed in range(40):
            picks = random.Random(seed)
            found |= results(source, lambda moving: moving and [picks.choice(moving)])
    else:
        found = results(source)
    faults = sorted({error for _, error in found if error})
    before = {output for output, error in found if error}
    return sorted(output for output, error in found if not error), faults, sorted(before)


if __name__ == "__main__":
    print(*answers(pathlib.Path(sys.argv[1]).read_text(), False), sep="\n")
