// The package's command: node by-command.mjs PACKAGE. Its module is that of node/tsp.mjs, and its calls of the system
// are those of host.mjs, of which the command's text is made. It catches the bytes of both streams.
// bindings/node/test runs it, in the suite `node` of ./check.

import { readFileSync } from "node:fs";
import { join } from "node:path";
import { inflateSync } from "node:zlib";

import { run, streams } from "../host.mjs";
import { serve } from "./serve.mjs";

const text = readFileSync(join(process.argv[2], "node/tsp.mjs"), "utf8");
const packed = /^const MODULE =\n    "([^"]*)";$/m.exec(text)?.[1] ?? "";
const module = new WebAssembly.Module(inflateSync(Buffer.from(packed, "base64")));

await serve((words) => {
    const caught = { 1: [], 2: [] };
    streams.write = (file, bytes) => caught[file].push(Buffer.from(bytes)) && bytes.length;
    const status = run(module, ["tsp", ...words]);
    return { status, out: Buffer.concat(caught[1]), err: Buffer.concat(caught[2]) };
});
