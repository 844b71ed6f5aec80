// The worker that decodes pages, so that keys never wait for one: a file to packed rows, and rows to the grey of a canvas.
import { greyBytes } from './ink.js'
import { readTiff } from './tiff.js'

// { width, height, rows }, or { fault } where the file can't be read
function readPixels(file) {
  try {
    return readTiff(file)
  } catch (why) {
    return { fault: why.message }
  }
}

self.addEventListener('message', ({ data: { id, file, page, across, down } }) => {
  const made = file === undefined ? greyBytes(page, across, down) : readPixels(file)
  const moved = made instanceof Uint8Array ? [made.buffer] : made.rows === undefined ? [] : [made.rows.buffer]
  self.postMessage({ id, made }, moved)
})
