// An upload gate for forms: it stores the images of a multipart/form-data body, which browsers and `curl -F` send. It refuses an
// image with too many pixels before its body has come. busboy separates the parts of a body.
//
//     npm install busboy
//     node node_modules/imagesize-proved/examples/form.mjs FOLDER [PORT]
//     curl -F image=@photo.jpg http://127.0.0.1:8080/

import { randomUUID } from 'node:crypto';
import { rm } from 'node:fs/promises';
import { createServer } from 'node:http';
import { join } from 'node:path';
import busboy from 'busboy';
import { BadRequest, refuse, reply, runAs, stored } from './gate.mjs';

const MOST_FILES = 10;

/** A server that stores the images of forms in a folder. */
export function formGate(folder) {
  return createServer(async (request, response) => {
    const paths = [];
    try {
      const images = await received(request, folder, paths);
      reply(response, 201, images.join('\n')).end();
    } catch (error) {
      await Promise.all(paths.map((path) => rm(path, { force: true })));
      await refuse(request, response, error);
    }
  });
}

// Stores each file of a form, and returns a line for each. All that is stored is listed in `paths`.
async function received(request, folder, paths) {
  const form = formOf(request);
  const images = [];
  const failed = new Promise((_, reject) => {
    form.on('file', (field, file) => {
      file.on('error', (error) => reject(new BadRequest(error.message))); // of a form that is cut
      paths.push(join(folder, randomUUID()));
      const image = stored(file.iterator({ destroyOnReturn: false }), paths.at(-1))
        .then(({ kind, width, height }) => `${field}: ${kind} ${width}x${height}`);
      image.catch(reject);
      images.push(image);
    });
    form.on('filesLimit', () => reject(new BadRequest(`The form has more than ${MOST_FILES} files`)));
    form.on('error', (error) => reject(new BadRequest(error.message)));
    request.on('error', reject);
  });
  const ended = new Promise((resolve) => { form.on('close', resolve); });
  try {
    // Not `pipeline`, which would destroy the request at an error, and its socket with it.
    request.pipe(form);
    await Promise.race([ended, failed]);
    if (images.length === 0) throw new BadRequest('The form has no file');
    return await Promise.all(images);
  } finally {
    request.unpipe(form);
    form.destroy();
    await Promise.allSettled(images);
  }
}

function formOf({ headers }) {
  try {
    return busboy({ headers, limits: { files: MOST_FILES } });
  } catch (error) {
    throw new BadRequest(error.message);
  }
}

runAs(import.meta.url, formGate);
