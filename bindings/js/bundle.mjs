// What a bundler takes for Node, by the condition "module" or "import". Node itself takes node.mjs, by "node-addons", which bundlers do not
// set. Without addons Node takes this file too.

import { init } from './out/imagesize.cjs';

export {
  ImageError, StreamProbe, init, probe, probeBlob, probeFile, probeFileSync, probeStream, probeUrl, spans,
} from './out/imagesize.cjs';

// In a bundle that is an ES module, only this file knows where it is.
init.address = import.meta.url;
