// What Node.js itself resolves: for each package.json below a folder, each of its dependencies and two paths in it, and each name of its imports,
// required from its directory.
// node compare/resolve.mjs FOLDER prints a line for each: start, name and the file or the error's code, with tabs between.
import { readdirSync, readFileSync } from 'node:fs';
import { createRequire, isBuiltin } from 'node:module';
import { join } from 'node:path';

const root = process.argv[2].replace(/\/+$/, '');

function resolved(directory, name) {
  if (isBuiltin(name)) return 'built in';
  try {
    const path = createRequire(join(directory, 'x.js')).resolve(name);
    return path.startsWith(root + '/') ? path.slice(root.length) : 'outside';
  } catch (error) {
    return error.code;
  }
}

function walk(directory) {
  for (const entry of readdirSync(directory, { withFileTypes: true })) {
    if (entry.isDirectory()) walk(join(directory, entry.name));
    if (entry.name !== 'package.json' || !entry.isFile()) continue;
    let manifest;
    try {
      manifest = JSON.parse(readFileSync(join(directory, entry.name), 'utf8'));
    } catch {
      continue;
    }
    const start = directory.slice(root.length) || '/';
    for (const name of Object.keys({ ...manifest.dependencies, ...manifest.optionalDependencies, ...manifest.peerDependencies })) {
      for (const asked of [name, name + '/package.json', name + '/missing']) {
        console.log([start, asked, resolved(directory, asked)].join('\t'));
      }
    }
    for (const name of Object.keys(manifest.imports ?? {})) {
      console.log([start, name, resolved(directory, name)].join('\t'));
    }
  }
}

walk(root);
