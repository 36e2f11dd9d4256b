// Prints the line of each file that is named, by the package that is installed, as `require` finds it.
const { readFileSync } = require('node:fs');
const { ImageError, probe } = require('imagesize-proved');

const name = ({ kind, compression }) => (compression ? `${kind}(${compression})` : kind);

for (const path of process.argv.slice(2)) {
  try {
    const image = probe(readFileSync(path));
    console.log(`${name(image)} ${image.width}x${image.height}`);
  } catch (error) {
    if (!(error instanceof ImageError)) throw error;
    console.log(error.kind ? `${name(error)}: ${error.message}` : error.message);
  }
}
