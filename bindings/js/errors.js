/** Why an input has no result. */
export class ImageError extends Error {
  /**
   * @param {string} code what went wrong, in capitals
   * @param {string} message the same for people
   * @param {object} [details] `cause`, and what is known about the input
   */
  constructor(code, message, { cause, ...found } = {}) {
    super(message, cause === undefined ? undefined : { cause });
    this.code = code;
    Object.assign(this, { kind: null, compression: null }, found);
  }
}

Object.defineProperty(ImageError.prototype, 'name', { value: 'ImageError', configurable: true, writable: true });
