// Node takes this file, and a bundler takes bundle.mjs: what is required here is in no bundle.
//
// In Node `import` gives the same module as `require`, so that a program which does both has one ImageError. It is required here too:
// to import a CommonJS module, Node first compiles a parser of such modules, which takes longer than all of this package.

import { createRequire } from 'node:module';

export const {
  ImageError, StreamProbe, init, probe, probeBlob, probeFile, probeFileSync, probeStream, probeUrl, spans,
} = createRequire(import.meta.url)('./out/imagesize.cjs');
