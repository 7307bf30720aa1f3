#!/usr/bin/env python3
"""The worlds of the benches.

usage: bench/worlds.py NAME SIZE > WORLD.json

Each world has a name, a size, and what the size counts:

    generated   modules; each imports the next one and up to three others, drawn by a linear congruential generator; every seventh is
                redirected to
    answers     the same in version 2 of the world file; one module has as many headers
    bare        modules; each imports the next one by a bare name, and a resolution says where that leads; half have a module of types
    configured  modules that import nothing; a configuration of its own imports each of the first half, and one configuration the others
    roots       roots
    typed       modules of TypeScript with types, references, JSX and its types; one of JavaScript tells of as many imports in comments
    headers     modules with headers, some of which say where types stand; one has as many headers
    large       modules of 100 KB
    redirected  imports of one module, each of which leads to its module over ten redirects
    reversed    imports of one module, whose answers arrive in reverse order
    assets      assets that one module imports, as texts and as bytes
    wasm        modules of WebAssembly with 20 exports; one has as many as there are modules
    templates   files of a tree; for each directory of 50 files a module imports it by a template; one template has as many parts
    sums        modules whose sums a locker knows; what is found first of each has another sum
    packages    packages of 20 versions, all of which one module imports; each depends on the next one
    chain       packages of 20 versions, each of which is found behind the one before alone
    versions    versions of one package, and files and exports of one of them; the limit on dates has as many exceptions
    cached      modules of one package, whose file tells what they import; a cache has every other one

Each list that a world file has is long in one of them.
"""
import base64
import hashlib
import json
import sys

# What the generator's state begins with.
START = 7
# The number of redirects in a row, of the files in a directory of a tree, and of the versions of a package.
ROW, FILES, VERSIONS = 10, 50, 20


def module(text, **more):
    """A source that is a module."""
    return {"kind": "module", "text": text, **more}


def place(line, length=13):
    """Where an import of a line stands."""
    return [[line, 7], [line, 7 + length]]


def imports(text, line, **more):
    """A static import."""
    return {"type": "static", "kind": "import", "specifier": text, "specifierRange": place(line, 2 + len(text)), **more}


def named(text, line):
    """A text with its place."""
    return {"text": text, "range": place(line, 2 + len(text))}


def world(roots, sources, infos, **more):
    return {"version": 1, "roots": roots, "sources": sources, "infos": infos, **more}


def wide(size, source, text, **more):
    """A world whose first module imports so many others: what a specifier's source is, and the text of each import."""
    first = "file:///m/main.js"
    sources = {first: module("")} | {f"file:///m/{number}.js": source(number) for number in range(size)}
    return world([first], sources, {first: {"dependencies": [imports(text(number), number) for number in range(size)]}}, **more)


def generated(size):
    state = START

    def draw():
        nonlocal state
        state = (state * 1103515245 + 12345) % 2**32
        return state // 65536 % 32768

    sources, infos = {}, {}
    for number in range(size):
        targets = [number + 1] if number + 1 < size else []
        targets += [draw() % size for _ in range(draw() % 4)]
        asked = name = f"file:///m/{number}.js"
        if number % 7 == 3:
            name = f"file:///m/r{number}.js"
            sources[asked] = {"kind": "redirect", "to": name}
        sources[name] = module(str(number))
        infos[name] = {
            "dependencies": [
                {"type": "static", "kind": "import", "specifier": f"./{target}.js", "specifierRange": [[at, 0], [at, 1]]}
                for at, target in enumerate(targets)
            ]
        }
    return world(["file:///m/0.js"], sources, infos, max_loads=2 * size)


def answers(size):
    whole = generated(size)
    entries = [{"specifier": specifier, "purpose": "load", **source} for specifier, source in whole.pop("sources").items()]
    entries[0]["headers"] = [[f"X-{number}", str(number)] for number in range(size)]
    return {**whole, "version": 2, "answers": entries}


def bare(size):
    modules = [f"file:///m/{number}.js" for number in range(size)]
    types = {f"file:///m/{number}.js": f"file:///m/{number}.d.ts" for number in range(0, size, 2)}
    linked = list(zip(modules, modules[1:]))
    return world(
        modules[:1],
        {specifier: module(specifier) for specifier in [*modules, *types.values()]},
        {specifier: {"dependencies": [imports("next", 0)]} for specifier, _ in linked},
        resolutions=[{"referrer": specifier, "text": "next", "kind": "code", "to": target} for specifier, target in linked],
        types={specifier: {"to": target} for specifier, target in types.items()},
    )


def configured(size):
    texts, half = [f"../m/{number}.js" for number in range(size)], size // 2
    return world(
        [],
        {f"file:///m/{number}.js": module(str(number)) for number in range(size)},
        {},
        imports=[{"referrer": f"file:///c/{number}.json", "imports": [texts[number]]} for number in range(half)]
        + [{"referrer": "file:///c/all.json", "imports": texts[half:]}],
    )


def roots(size):
    modules = [f"file:///m/{number}.js" for number in range(size)]
    return world(modules, {specifier: module(specifier) for specifier in modules}, {})


def typed(size):
    folder = "file:///t/"
    names = [f"{number}.tsx" if number % 2 else f"{number}.ts" for number in range(size)]
    types = [f"./{number}.d.ts" for number in range(size)]
    sources = {folder + name: module(f"export const text = {name!r};\n") for name in names}
    sources |= {folder + text[2:]: module("export {};\n") for text in types}
    sources |= {f"{folder}jsx/{name}": module("") for name in ("jsx-runtime.js", "jsx-runtime.d.ts")}
    infos = {}
    for number, name in enumerate(names):
        info = {"dependencies": [{**imports(types[number], 0), "kind": "importType"}]}
        if number + 1 < size:
            more = {"typesSpecifier": named(types[number + 1], 2)} if number % 5 == 0 else {}
            info["dependencies"] += [imports(f"./{names[number + 1]}", 3, **more)]
        if number % 2:
            info |= {"jsxImportSource": named("./jsx", 1), "jsxImportSourceTypes": named("./jsx", 2)}
        if number % 3 == 0:
            info["tsReferences"] = [{"type": "path", **named(types[number], 0)}, {"type": "types", **named(types[number - 1], 1)}]
        infos[folder + name] = info
    # The lists of one module, in JavaScript and in TypeScript.
    sources |= {f"{folder}lists.js": module(""), f"{folder}lists.ts": module("")}
    infos[f"{folder}lists.js"] = {"jsdocImports": [named(text, line) for line, text in enumerate(types)]}
    infos[f"{folder}lists.ts"] = {"tsReferences": [{"type": "path", **named(text, line)} for line, text in enumerate(types)]}
    resolutions = [
        {"referrer": folder + name, "text": "./jsx/jsx-runtime", "kind": kind, "to": f"{folder}jsx/jsx-runtime{ending}"}
        for name in names[1::2]
        for kind, ending in (("code", ".js"), ("types", ".d.ts"))
    ]
    return world([folder + names[0], f"{folder}lists.js", f"{folder}lists.ts"], sources, infos, resolutions=resolutions)


def headers(size):
    names = [f"https://x.test/{number}" for number in range(size)]
    sources = {}
    for number, name in enumerate(names):
        told = {"content-type": "text/javascript; charset=utf-8"}
        if number % 4 == 0:
            told["x-typescript-types"] = f"./{number}.d.ts"
            sources[f"{name}.d.ts"] = module("", headers={"content-type": "application/typescript"})
        sources[name] = module(str(number), headers=told, mtime=1700000000000 + number)
    sources[names[0]]["headers"] |= {f"x-{number}": str(number) for number in range(size)}
    infos = {name: {"dependencies": [imports(f"./{number + 1}", 0)]} for number, name in enumerate(names[:-1])}
    return world(names[:1], sources, infos)


def large(size):
    line = 'const name = "a text of some length, as the sources of modules have it";\n'
    names = [f"file:///m/{number}.js" for number in range(size)]
    sources = {name: module(f"// {number}\n" + line * (100_000 // len(line))) for number, name in enumerate(names)}
    infos = {name: {"dependencies": [imports(f"./{number + 1}.js", 0)]} for number, name in enumerate(names[:-1])}
    return world(names[:1], sources, infos)


def redirected(size):
    whole = wide(size, lambda number: {"kind": "redirect", "to": f"file:///r/{number}/1.js"}, lambda number: f"./{number}.js")
    for number in range(size):
        for at in range(1, ROW):
            whole["sources"][f"file:///r/{number}/{at}.js"] = {"kind": "redirect", "to": f"file:///r/{number}/{at + 1}.js"}
        whole["sources"][f"file:///r/{number}/{ROW}.js"] = module(str(number))
    return whole


def reversed_answers(size):
    # (the first call answers the root; after it so many questions are open, of which the last is answered; no call has the numbers told)
    arrival, failing = [0, *range(size - 1, -1, -1)], [10 * size + number for number in range(size)]
    return wide(size, lambda number: module(str(number)), lambda number: f"./{number}.js", arrival=arrival, fail_next=failing)


def assets(size):
    whole = wide(size, lambda number: module(str(number)), lambda number: f"./{number}.js", bytes=True)
    infos = whole["infos"]["file:///m/main.js"]["dependencies"]
    for number, it in enumerate(infos):
        it["importAttributes"] = {"known": {"type": {"known": "bytes" if number % 2 else "text"}}}
    infos[0]["importAttributes"]["known"] |= {f"a{number}": {"known": str(number)} for number in range(size)}
    return whole


def number_bytes(number):
    """A number as WebAssembly has it (LEB128)."""
    out = bytearray()
    while number > 127:
        out.append(number % 128 + 128)
        number //= 128
    return bytes([*out, number])


def section(kind, items):
    """A section of a WebAssembly module that is a list."""
    content = number_bytes(len(items)) + b"".join(items)
    return bytes([kind]) + number_bytes(len(content)) + content


def wasm_bytes(exports, imported):
    """A module of WebAssembly that imports a function, and has one of its own, exported under so many names."""

    def text(value):
        return number_bytes(len(value)) + value.encode()

    return (
        b"\0asm\1\0\0\0"
        + section(1, [b"\x60\1\x7f\1\x7f"])
        + section(2, [text(imported) + text("f") + b"\0\0"])
        + section(3, [b"\0"])
        + section(7, [text(f"name{number}") + b"\0\1" for number in range(exports)])
        + section(10, [b"\4\0\x20\0\x0b"])
    )


def wasm(size):
    names = [f"file:///m/{number}.wasm" for number in range(size)]
    sources = {}
    for number, name in enumerate(names):
        code = wasm_bytes(20 if number else size, f"./{number + 1}.wasm")
        sources[name] = {"kind": "module", "base64": base64.b64encode(code).decode()}
    infos = {name: {"dependencies": [imports(f"./{number + 1}.wasm", 0)]} for number, name in enumerate(names[:-1])}
    return world(names[:1], sources, infos)


def template(line, *parts):
    """A dynamic import by a template; None stands for an expression."""
    argument = [{"type": "expr"} if it is None else {"type": "string", "value": it} for it in parts]
    return {"type": "dynamic", "argument": argument, "argumentRange": place(line)}


def templates(size):
    folders = -(-size // FILES)
    tree = [f"/t/d{number // FILES}/{number}.js" for number in range(size)]
    sources = {f"file://{path}": module("") for path in tree} | {f"file:///t/m{number}.js": module("") for number in range(folders)}
    infos = {}
    for number in range(folders):
        following = [imports(f"./m{number + 1}.js", 1)] if number + 1 < folders else []
        infos[f"file:///t/m{number}.js"] = {"dependencies": [template(0, f"./d{number}/", None, ".js"), *following]}
    infos["file:///t/m0.js"]["dependencies"].append(template(2, "./d0/", *[None, "/x/"] * (size // 2), None))
    return world(["file:///t/m0.js"], sources, infos, tree=tree, max_loads=10 * size)


def sum_of(text):
    return hashlib.sha256(text.encode()).hexdigest()


def sums(size):
    names = [f"https://x.test/{number}.js" for number in range(size)]
    return world(
        names[:1],
        {name: module(f"{number} as it was") for number, name in enumerate(names)},
        {name: {"dependencies": [imports(f"./{number + 1}.js", 0)]} for number, name in enumerate(names[:-1])},
        reload={name: module(str(number)) for number, name in enumerate(names)},
        verify=True,
        locker={
            "remote": {name: sum_of(str(number)) for number, name in enumerate(names)},
            "packages": {f"@s/p{number}@1.0.0": sum_of(str(number)) for number in range(size)},
        },
        max_loads=10 * size,
    )


def linked_packages(size, first):
    """A world of so many packages, of which a module imports the first ones, and each package the next one."""
    main = "file:///main.js"
    sources = {main: module("")}
    infos = {main: {"dependencies": [imports(f"jsr:@s/p{number}@1", number) for number in range(first)]}}
    last = f"1.{VERSIONS - 1}.0"
    for number in range(size):
        package = f"https://jsr.io/@s/p{number}/"
        manifest = {"/mod.js": {"size": 1, "checksum": f"sha256-{64 * '0'}"}}
        texts = {
            "meta.json": json.dumps({"versions": {f"1.{version}.0": {} for version in range(VERSIONS)}}),
            f"{last}_meta.json": json.dumps({"exports": {".": "./mod.js"}, "manifest": manifest}),
            f"{last}/mod.js": str(number),
        }
        sources |= {package + name: module(text) for name, text in texts.items()}
        if number + 1 < size:
            infos[f"{package}{last}/mod.js"] = {"dependencies": [imports(f"jsr:@s/p{number + 1}@1", 0)]}
    return world([main], sources, infos)


def packages(size):
    return linked_packages(size, size)


def chain(size):
    return linked_packages(size, 1)


def versions(size):
    main, package = "file:///main.js", "https://jsr.io/@s/p/"
    told = {f"1.{number}.0": {"createdAt": "2024-01-01T00:00:00Z"} for number in range(size)}
    last, names = f"{package}1.{size - 1}.0", range(size)
    file = {
        "exports": {f"./{number}": f"./{number}.js" for number in names},
        "manifest": {f"/{number}.js": {"size": 1, "checksum": f"sha256-{sum_of(str(number))}"} for number in names},
    }
    sources = {main: module(""), f"{package}meta.json": module(json.dumps({"versions": told}))}
    sources |= {f"{last}_meta.json": module(json.dumps(file))}
    sources |= {f"{last}/{number}.js": module(str(number)) for number in names}
    newest = {"date": "2024-06-01T00:00:00Z"}
    newest |= {"exclude": [f"@s/e{number}" for number in names], "excludePrefixes": [f"@t{number}/" for number in names]}
    infos = {main: {"dependencies": [imports(f"jsr:@s/p@1/{number}", number) for number in names]}}
    return world([main], sources, infos, newest=newest, max_loads=10 * size)


def cached(size):
    package, names = "https://jsr.io/@s/p/", [f"/{number}.js" for number in range(size)]
    graph = {name: {"dependencies": [imports(f"./{number + 1}.js", 0)]} if number + 1 < size else {} for number, name in enumerate(names)}
    file = {
        "exports": {".": "./0.js"},
        "manifest": {name: {"size": 1, "checksum": f"sha256-{sum_of(name)}"} for name in names},
        "moduleGraph2": graph,
    }
    modules = {f"{package}1.0.0{name}": module(name) for name in names}
    files = {f"{package}meta.json": {"versions": {"1.0.0": {}}}, f"{package}1.0.0_meta.json": file}
    sources = modules | {name: module(json.dumps(text)) for name, text in files.items()}
    infos = {f"{package}1.0.0{name}": graph[name] for name in names[::2]}
    return world(
        ["jsr:@s/p@1"], sources, infos, cached={name: modules[name] for name in list(modules)[::2]}, max_loads=10 * size
    )


# Each world, and the two sizes from which on its growth is taken.
WORLDS = {
    "generated": (generated, 4_000, 16_000),
    "answers": (answers, 4_000, 16_000),
    "bare": (bare, 2_000, 8_000),
    "configured": (configured, 2_000, 8_000),
    "roots": (roots, 4_000, 16_000),
    "typed": (typed, 1_000, 4_000),
    "headers": (headers, 2_000, 8_000),
    "large": (large, 128, 512),
    "redirected": (redirected, 400, 1_600),
    "reversed": (reversed_answers, 4_000, 16_000),
    "assets": (assets, 2_000, 8_000),
    "wasm": (wasm, 500, 2_000),
    "templates": (templates, 1_250, 5_000),
    "sums": (sums, 2_000, 8_000),
    "packages": (packages, 75, 300),
    "chain": (chain, 75, 300),
    "versions": (versions, 500, 2_000),
    "cached": (cached, 1_000, 4_000),
}


def main(words):
    if len(words) != 2 or words[0] not in WORLDS or not words[1].isdigit():
        print(__doc__, end="", file=sys.stdout if words == ["--help"] else sys.stderr)
        return 0 if words == ["--help"] else 2
    json.dump(WORLDS[words[0]][0](int(words[1])), sys.stdout, separators=(",", ":"))
    return 0


if __name__ == "__main__":
    sys.exit(main(sys.argv[1:]))
