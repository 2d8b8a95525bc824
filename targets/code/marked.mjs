// marked.mjs MODULE.ll OUT.ll: the same module, with debug information that says of each instruction in which line of MODULE.ll it stands.
// A compiler carries such marks along and makes the same code of both, which `targets/object` compares. So an instruction of the object
// has its lines of the module, one for each function that became a part of its caller.
import { readFileSync, writeFileSync } from 'node:fs';

const [from, to] = process.argv.slice(2);
const lines = [], marks = [];
let next = 1000;
const mark = (text) => {
    marks.push(`!${next} = ${text}`);
    return next++;
};
const file = mark('!DIFile(filename: "robequarry.ll", directory: ".")');
const unit = mark(`distinct !DICompileUnit(language: DW_LANG_C99, file: !${file}, isOptimized: true, runtimeVersion: 0, ` +
    'emissionKind: FullDebug)');
const type = mark('!DISubroutineType(types: !{})');
const version = mark('!{i32 2, !"Debug Info Version", i32 3}');

let scope, inSwitch = false;
readFileSync(from, 'utf8').split('\n').forEach((text, index) => {
    const line = index + 1, head = /^define .*?@("?)([^"(]+)\1\(/.exec(text);
    if (head) {
        scope = mark(`distinct !DISubprogram(name: "${head[2]}", scope: !${file}, file: !${file}, line: ${line}, type: !${type}, ` +
            `spFlags: DISPFlagDefinition | DISPFlagOptimized, unit: !${unit})`);
        lines.push(text.replace(/ \{$/, ` !dbg !${scope} {`));
        return;
    }
    if (text === '}') scope = undefined;
    // A switch takes several lines. Its mark stands after the last of them.
    if (/^  switch .*\[$/.test(text)) inSwitch = true;
    if (/^  \]$/.test(text)) inSwitch = false;
    const isMarked = scope !== undefined && /^  \S/.test(text) && !inSwitch;
    lines.push(isMarked ? `${text}, !dbg !${mark(`!DILocation(line: ${line}, column: 1, scope: !${scope})`)}` : text);
});
lines.push(`!llvm.dbg.cu = !{!${unit}}`, `!llvm.module.flags = !{!${version}}`, ...marks, '');
writeFileSync(to, lines.join('\n'));
