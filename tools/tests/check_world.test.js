// Where a file is no world, and what is wanted there.
"use strict";
const assert = require("node:assert");
const fs = require("node:fs");
const path = require("node:path");
const { test } = require("node:test");
const { worldFaults } = require("../lib/world_file.js");
const { TOOLS, inFolder, runTool } = require("./helper.js");

const told = (text) => worldFaults(Buffer.from(text)).faults.map((it) => `${it.line}:${it.column} ${it.path}: ${it.wanted}`);

test("each example is a world", () => {
  const folder = path.join(TOOLS, "..", "examples");
  // Those of graph_tools that aren't JSON have a line of their own before the world.
  const worldIn = (name, text) => (name.endsWith(".json") ? text : text.slice(text.indexOf("\n") + 1));
  const files = fs.readdirSync(folder).map((it) => worldIn(it, fs.readFileSync(path.join(folder, it), "utf8")));
  const page = fs.readFileSync(path.join(TOOLS, "..", "docs", "WORLD_FILE.md"), "utf8");
  const shown = [...page.matchAll(/^\{"version":[12].*\}$/gm)].map((it) => it[0]);
  assert.ok(files.length >= 3 && shown.length >= 4);
  for (const text of [...files, ...shown]) assert.deepStrictEqual(told(text), []);
});

const KINDS = '"import", "importDefer", "importSource", "importType", "importEquals", "export", "exportType", "exportEquals" or "maybeTsModuleAugmentation"';
const info = (members) => `{"version":1,"infos":{"file:///a.js":{${members}}}}`;
const INFO = 'infos["file:///a.js"]';
const sources = (key, members) => `{"version":1,"sources":{${JSON.stringify(key)}:{${members}}}}`;
const SOURCE = 'sources["file:///a.js"]';
const imported = (members) => info(`"dependencies":[{${members}}]`);
const DEPENDENCY = `${INFO}.dependencies[0]`;
const typed = (type) => info(`"dependencies":[{"type":"static","kind":"import","specifier":"a","specifierRange":[[0,0],[0,1]],"importAttributes":{"known":{"type":${type}}}}]`);

test("a fault's place, member, and what is wanted there", () => {
  const rows = [
    ["[]", "1:1 : an object"],
    ["{}", '1:1 : the member "version"'],
    ['{\n  "version": 3\n}', "2:14 version: 1 or 2"],
    ['{"version":1,"roots":["a"]}', "1:23 roots[0]: an absolute URL"],
    ['{"version":1,"max_loads":-1}', "1:26 max_loads: a number that is at least 0"],
    ['{"version":1,"max_loads":1.0}', "1:26 max_loads: a whole number from 0 to 18446744073709551615, without sign, point or exponent"],
    ['{"version":1,"arrival":[18446744073709551616]}', "1:25 arrival[0]: a number that is at most 18446744073709551615"],
    ['{"version":1,"kind":"code ","jsx":{}}', '1:21 kind: "all", "code" or "types"'],
    ['{"version":1,"sources":{"file:///a.js":{"kind":"modul"}}}', '1:48 sources["file:///a.js"].kind: "module", "redirect", "external", "missing", "error" or "data"'],
    ['{"version":1,"sources":{"file:///a.js":{"kind":"module"}}}', '1:40 sources["file:///a.js"]: the member "text"'],
    ['{"version":1,"types":{"file:///a.js":{"to":"file:///b.js"},"FILE:///a.js":{"to":"file:///b.js"}}}', '1:60 types["FILE:///a.js"]: another specifier than "file:///a.js", which is the same URL'],
    ['{"version":1,"resolutions":[{"referrer":"file:///a.js","text":"b","kind":"code"}]}', '1:29 resolutions[0]: the member "to"'],
    ['{"version":1,"reload":{"file:///a.js":{"kind":"redirect","to":"b"}}}', '1:63 reload["file:///a.js"].to: an absolute URL'],
    ['{"version":1,"reload":{"file:///a.js":{"kind":"data"}}}', '1:24 reload["file:///a.js"]: a data: URL as the key'],
    ['{"version":1,"verify":1}', "1:23 verify: true or false"],
    ['{"version":1,"locker":{"package":{}}}', '1:24 locker.package: no member but "remote" and "packages"'],
    ['{"version":1,"locker":{"packages":{"@a/b@1.0":""}}}', '1:36 locker.packages["@a/b@1.0"]: a name, @ and a version of SemVer 2.0'],
    ['{"version":1,"locker":{"packages":{"@1.0.0":""}}}', '1:36 locker.packages["@1.0.0"]: a name, @ and a version of SemVer 2.0'],
    ['{"version":1,"locker":{"packages":{"@a/b@1.0.0":1}}}', '1:49 locker.packages["@a/b@1.0.0"]: a text'],
    ['{"version":1,"cached":{"file:///a.js":{"kind":"redirect","to":"b"}}}', '1:63 cached["file:///a.js"].to: an absolute URL'],
    ['{"version":1,"cached":{"a.js":{"kind":"missing"}}}', '1:24 cached["a.js"]: an absolute URL as the key'],
    ['{"version":1,"registry":"jsr.io"}', "1:25 registry: an absolute URL"],
    ['{"version":1,"registry":"file:///a/"}', "1:25 registry: an http or https URL"],
    ['{"version":1,"passthrough_jsr":0}', "1:32 passthrough_jsr: true or false"],
    ['{"version":1,"prefer_cached_jsr":"true"}', "1:34 prefer_cached_jsr: true or false"],
    ['{"version":1,"newest":"2024-06-01T00:00:00Z"}', "1:23 newest: an object"],
    ['{"version":1,"newest":{"date":0}}', "1:31 newest.date: a text"],
    ['{"version":1,"newest":{"exclude":["@a/b",1]}}', "1:42 newest.exclude[1]: a text"],
    ['{"version":1,"newest":{"dates":{}}}', '1:24 newest.dates: no member but "date", "exclude", "excludePrefixes" and "prefixDates"'],
    ['{"version":1,"newest":{"prefixDates":[]}}', "1:38 newest.prefixDates: an object"],
    ['{"version":1,"newest":{"prefixDates":{"@a/":0}}}', '1:45 newest.prefixDates["@a/"]: a text'],
    ['{"version":1,"locker":{"remote":{"a":""}}}', "1:34 locker.remote.a: an absolute URL as the key"],
    ['{"version":1,"locker":{"remote":{"https://a.b/":null}}}', '1:49 locker.remote["https://a.b/"]: a text'],
    ['{"version":1,"locker":{"remote":{"https://a.b":"","https://a.b/":""}}}', '1:51 locker.remote["https://a.b/"]: another specifier than "https://a.b", which is the same URL'],
    [info('"script":null'), `1:48 ${INFO}.script: true or false`],
    [info('"sourceMapUrl":"a.js.map"'), `1:54 ${INFO}.sourceMapUrl: an object`],
    [info('"sourceMapUrl":{"text":"a.js.map"}'), `1:54 ${INFO}.sourceMapUrl: the member "range"`],
    [info('"dependencies":[{"type":"static","kind":"require","specifier":"a","specifierRange":[[0,0],[0,1]]}]'), `1:79 ${INFO}.dependencies[0].kind: ${KINDS}`],
    ['{"version":1,"is_dynamic":1}', "1:27 is_dynamic: true or false"],
    ['{"version":1,"skip_dynamic_deps":null}', "1:34 skip_dynamic_deps: true or false"],
    ['{"version":1,"bytes":"bytes"}', "1:22 bytes: true or false"],
    ['{"version":1,"css":[]}', "1:20 css: true or false"],
    ['{"version":1,"config":{}}', "1:23 config: true or false"],
    ['{"version":1,"tree":{"/a.js":1}}', "1:21 tree: a list"],
    ['{"version":1,"tree":["/a.js",null]}', "1:30 tree[1]: a text"],
    ['{"version":1,"tree":["/a.js","b.js"]}', "1:30 tree[1]: a path that begins with /"],
    ['{"version":1,"tree":[""]}', "1:22 tree[0]: a path that begins with /"],
    ['{"version":1,"cache_info":[]}', "1:27 cache_info: an object"],
    ['{"version":1,"cache_info":{"a":""}}', "1:28 cache_info.a: an absolute URL as the key"],
    ['{"version":1,"cache_info":{"file:///a":null}}', '1:40 cache_info["file:///a"]: a text'],
    ['{"version":1,"npm":null}', "1:20 npm: an object"],
    ['{"version":1,"npm":{"package":{}}}', '1:21 npm.package: no member but "packages" and "graph"'],
    ['{"version":1,"npm":{"packages":null}}', "1:32 npm.packages: an object"],
    ['{"version":1,"npm":{"packages":{"a":null}}}', "1:33 npm.packages.a: a name, @ and a requirement"],
    ['{"version":1,"npm":{"packages":{"a@1":1}}}', '1:39 npm.packages["a@1"]: null or an object'],
    ['{"version":1,"npm":{"packages":{"a@1":{"class":""}}}}', '1:39 npm.packages["a@1"]: the member "message"'],
    ['{"version":1,"npm":{"graph":"a"}}', "1:29 npm.graph: null or an object"],
    ['{"version":1,"npm":{"graph":{"class":"","message":null}}}', "1:51 npm.graph.message: a text"],
    ['{"version":1,"resolutions":[{"referrer":"file:///a.js","text":"b","kind":"code","to":"file:///b.js","error":{"class":"","message":""}}]}', "1:86 resolutions[0].to: no specifier beside error"],
    [info('"jsdocImports":[{"text":"a","range":[[0,0]]}]'), `1:75 ${INFO}.jsdocImports[0].range: a list of 2 values`],
    [info('"error":{"class":"a"}'), `1:47 ${INFO}.error: the member "message"`],
  ];
  for (const [text, wanted] of rows) assert.deepStrictEqual(told(text), [wanted], text);
});

const BASE64 = "standard base64 (RFC 4648) of whole bytes, the bits past the last one zero";

test("faults of contents, headers, times, data: URLs and types of imports", () => {
  const rows = [
    [sources("file:///a.js", '"kind":"module","text":"","base64":""'), `1:64 ${SOURCE}.text: no text beside base64`],
    [sources("file:///a.js", '"kind":"module","base64":1'), `1:66 ${SOURCE}.base64: a text`],
    [sources("file:///a.js", '"kind":"module","text":"","headers":{"Content-Type":""}'), `1:78 ${SOURCE}.headers["Content-Type"]: a name in lower case`],
    [sources("file:///a.js", '"kind":"module","text":"","headers":{"a":1}'), `1:82 ${SOURCE}.headers.a: a text`],
    [sources("file:///a.js", '"kind":"module","text":"","mtime":18446744073709551616'), `1:75 ${SOURCE}.mtime: a number that is at most 18446744073709551615`],
    [sources("file:///a.js", '"kind":"data"'), `1:25 ${SOURCE}: a data: URL as the key`],
    [sources("data:,a", '"kind":"data","text":""'), '1:50 sources["data:,a"].text: no member but "kind"'],
    [typed('{"known":1}'), `1:180 ${DEPENDENCY}.importAttributes.known.type.known: a text`],
  ];
  for (const [text, wanted] of rows) assert.deepStrictEqual(told(text), [wanted], text);
});

const entry = (members) => `{"version":2,"answers":[{"specifier":"file:///a.js",${members}}]}`;
const KINDS_OF_ENTRIES = '"module", "redirect", "external", "missing", "error", "data" or "cached"';
const PURPOSES = '"load", "ensure", "load-reload", "ensure-reload" or "load-only"';

test("entries that are taken", () => {
  const rows = [
    '{"version":2}',
    '{"version":2,"answers":[]}',
    entry('"purpose":"load","kind":"module","text":"","name":"file:///b.js","headers":[["A","b"],["a","c"]],"mtime":1'),
    entry('"purpose":"load-only","kind":"module","base64":"AA=="'),
    entry('"purpose":"load","kind":"missing"},{"specifier":"file:///a.js","purpose":"ensure","kind":"cached"'),
    entry('"purpose":"ensure-reload","kind":"redirect","to":"file:///b.js"'),
    entry('"purpose":"ensure","kind":"error","class":"","message":""'),
    entry('"purpose":"load-reload","kind":"external","to":"file:///b.js"'),
    '{"version":2,"answers":[{"specifier":"data:,a","purpose":"load","kind":"data"}]}',
  ];
  for (const text of rows) assert.deepStrictEqual(told(text), [], text);
});

test("faults of entries", () => {
  const rows = [
    ['{"version":1,"answers":[]}', "1:24 answers: no answers in version 1"],
    ['{"version":2,"sources":{}}', "1:24 sources: no sources in version 2"],
    ['{"version":2,"reload":{}}', "1:23 reload: no reload in version 2"],
    ['{"version":2,"cached":{}}', "1:23 cached: no cached in version 2"],
    ['{"version":2,"answers":{}}', "1:24 answers: a list"],
    [entry('"purpose":"load-only","kind":"cached"'), '1:63 answers[0].purpose: "ensure" or "ensure-reload"'],
    [entry('"purpose":"ensure","kind":"module","text":""'), '1:63 answers[0].purpose: "load", "load-reload" or "load-only"'],
    [entry('"purpose":"reload","kind":"missing"'), `1:63 answers[0].purpose: ${PURPOSES}`],
    [entry('"purpose":"load","kind":"cache"'), `1:77 answers[0].kind: ${KINDS_OF_ENTRIES}`],
    [entry('"kind":"missing"'), '1:25 answers[0]: the member "purpose"'],
    [entry('"purpose":"load","kind":"module","text":"","headers":[["a"]]'), "1:107 answers[0].headers[0]: a list of 2 values"],
    [entry('"purpose":"load","kind":"module","text":"","headers":{}'), "1:106 answers[0].headers: a list"],
    [entry('"purpose":"load","kind":"module","text":"","name":"b"'), "1:103 answers[0].name: an absolute URL"],
    [entry('"purpose":"load","kind":"module","base64":"A"'), `1:95 answers[0].base64: ${BASE64}`],
    [entry('"purpose":"load","kind":"redirect","to":"b"'), "1:93 answers[0].to: an absolute URL"],
    [entry('"purpose":"load","kind":"data"'), "1:38 answers[0].specifier: a data: URL"],
    [
      entry('"purpose":"load","kind":"missing"},{"specifier":"FILE:///a.js","purpose":"load","kind":"external"'),
      "1:88 answers[1]: another specifier or purpose than answers[0] has",
    ],
  ];
  for (const [text, wanted] of rows) assert.deepStrictEqual(told(text), [wanted], text);
});

const IMPORTS = [
  '"type":"static","kind":"importSource","specifier":"a","specifierRange":[[0,0],[0,1]]',
  '"type":"dynamic","argumentRange":[[0,0],[0,1]]',
  '"type":"dynamic","kind":"import","argument":"a","argumentRange":[[0,0],[0,1]],"importAttributes":"unknown"',
  '"type":"dynamic","kind":"require","argument":[],"argumentRange":[[0,0],[0,1]]',
  '"type":"dynamic","kind":"importSource","argument":[{"type":"string","value":"./"},{"type":"expr"}],"argumentRange":[[0,0],[0,1]]',
];

test("faults of imports by calls", () => {
  const rows = [
    ['"type":"dynamic","argument":"a"', `1:55 ${DEPENDENCY}: the member "argumentRange"`],
    ['"type":"dynamic","kind":"export","argumentRange":[[0,0],[0,1]]', `1:80 ${DEPENDENCY}.kind: "import", "importDefer", "importSource" or "require"`],
    ['"type":"dynamic","argument":1,"argumentRange":[[0,0],[0,1]]', `1:84 ${DEPENDENCY}.argument: a text or a list`],
    ['"type":"dynamic","argument":[{"type":"string"}],"argumentRange":[[0,0],[0,1]]', `1:85 ${DEPENDENCY}.argument[0]: the member "value"`],
    ['"type":"call","argumentRange":[[0,0],[0,1]]', `1:63 ${DEPENDENCY}.type: "static" or "dynamic"`],
  ];
  for (const [members, wanted] of rows) assert.deepStrictEqual(told(imported(members)), [wanted], members);
});

test("new members that are taken", () => {
  const rows = [
    sources("file:///a.css", '"kind":"module","text":""'),
    sources("file:///a.wasm", '"kind":"module","base64":"AGFzbQEAAAA=","headers":{},"mtime":0'),
    sources("file:///a", '"kind":"module","text":"","headers":{"content-type":"a/b","\u00c4":""},"mtime":18446744073709551615'),
    sources("DATA:,a", '"kind":"data"'),
    sources("data:nothing", '"kind":"data"'),
    ...['"unknown"', '{"known":"json"}', '{"known":"text"}', '{"known":"bytes"}', '{"known":"css"}', '{"known":"yaml"}'].map(typed),
    '{"version":1,"is_dynamic":true,"skip_dynamic_deps":false,"bytes":true,"css":false,"config":true}',
    '{"version":1,"cached":{"data:,a":{"kind":"data"}},"locker":{"packages":{"@a/b@1.0.0-a.1+b":"","a@0.0.0":""}}}',
    '{"version":1,"registry":"HTTP://a.b/c","passthrough_jsr":true,"prefer_cached_jsr":false,"newest":{"date":"2024-06-01T00:00:00Z","exclude":[],"excludePrefixes":["@a/"],"prefixDates":{"":"2024-06-01T00:00:00Z"}}}',
    '{"version":1,"tree":[]}',
    '{"version":1,"tree":["/a.js","/a/../b.js","/","/a.js"]}',
    '{"version":1,"npm":{}}',
    '{"version":1,"cache_info":{}}',
    '{"version":2,"cache_info":{"file:///a.js":"/cache/a","https://a.b/":""}}',
    '{"version":2,"npm":{"packages":{"a@1":null,"@a/b@^1 || 2":{"class":"","message":""}},"graph":null}}',
    '{"version":1,"npm":{"graph":{"class":"","message":""},"packages":{}}}',
    info('"sourceMapUrl":{"text":"a.js.map","range":[[0,0],[0,1]]}'),
    ...IMPORTS.map(imported),
  ];
  for (const text of rows) assert.deepStrictEqual(told(text), [], text);
});

test("requirements of packages: a name that may have a scope, and ranges or a tag", () => {
  const isTaken = (text) => told(`{"version":1,"npm":{"packages":{${JSON.stringify(text)}:null}}}`).length === 0;
  const requirements = ["1", "1.2.3-a.1+b.01", "18446744073709551615", "*", "1.x.0", "=1", ">= 1 <2", "1 - 2.0.0", "1  -  2", "^1||~2 || 3", "latest", "v1", "1.2.3-99999999999999999999"];
  const taken = ["a", "@a/b", "A.b_c", "\u00e9", " ", "@a@1/b"].map((name) => `${name}@1`).concat(requirements.map((it) => `a@${it}`));
  const others = ["", " 1", "1 ", "01", "1.2.3.4", "1.2-a", "1.2.3-01", "1.2.3-", "18446744073709551616", "< =1", "1<2", "1 -2", "1 - 2 - 3", "||1", "1||||2", "~>1", "-a", "a b", "a/b", "\u00e9"];
  const refused = ["", "@", "@1", "a", "a@b@1", "a/b@1", "@a@1", "@/b@1", "@a/@1", "@a/b/c@1", "@a/b"].concat(others.map((it) => `a@${it}`));
  for (const text of taken) assert.ok(isTaken(text), text);
  for (const text of refused) assert.ok(!isTaken(text), text);
});

test("base64: the encoding of some bytes, its padding optional", () => {
  const isTaken = (text) => told(sources("file:///a.js", `"kind":"module","base64":"${text}"`)).length === 0;
  const taken = ["", "Zg==", "Zg=", "Zg", "Zm8=", "Zm8", "Zm9v", "Zm9vYg==", "Zm9vYmE=", "Zm9vYmFy", "+/+/"];
  const refused = ["Z", "Zm9vY", "=", "Zg===", "Zm8==", "Zm9v=", "Zh==", "Zm9=", "Zm9v\\n", "Zm 8=", "-_-_", "Zg==Zg==", "Zm9vY\u00fc"];
  for (const text of taken) assert.ok(isTaken(text), text);
  for (const text of refused) assert.ok(!isTaken(text), text);
  assert.deepStrictEqual(told(sources("file:///a.js", '"kind":"module","base64":"Zh=="')), [`1:66 ${SOURCE}.base64: ${BASE64}`]);
});

test("what is passed over", () => {
  assert.deepStrictEqual(told(info('"other":null,"jsdocImports":[{"text":"a","range":[[0,0],[0,1]],"more":[]}]')), []);
  assert.deepStrictEqual(told('{"version":2,"version":1}'), []);
});

test("no JSON", () => {
  const rows = [
    ["{", "1:2 : a key in double quotes"],
    ['{"a":1,}', "1:8 : a key in double quotes"],
    ['{"a":01}', "1:6 : a value of JSON"],
    ['{"a":"\\ud800"}', "1:7 : a surrogate pair"],
    ['{"version":1} x', "1:15 : the end of the file"],
    ["\ufeff{}", "1:1 : a value of JSON"],
    ["[".repeat(128), "1:128 : at most 127 objects and lists inside of each other"],
  ];
  for (const [text, wanted] of rows) assert.deepStrictEqual(told(text), [wanted], text);
});

test("statuses and messages of the command", () => {
  const rows = [
    ['{"version":1}', 0, ""],
    ['{"version":3}', 1, "-:1:12: version: wanted is 1 or 2\n"],
    ["{", 2, ""],
  ];
  for (const [input, status, out] of rows) assert.deepStrictEqual(runTool("check_world", [], input), { status, out, err: status < 2 ? "" : "check_world: -:1:2: wanted is a key in double quotes: the file is no JSON\n" });
  assert.strictEqual(runTool("check_world", ["/nope"]).status, 2);
  inFolder({ bad: "" }, (folder) => {
    fs.writeFileSync(path.join(folder, "bad"), Buffer.from([0x22, 0xc3, 0xa9, 0xff]));
    assert.match(runTool("check_world", [path.join(folder, "bad")]).err, /bad:1:3: wanted is UTF-8/);
  });
});
