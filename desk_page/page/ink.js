// A page of packed rows to grey: each cell of the canvas is as dark as the share of its pixels that are black. A browser
// that shrinks black and white by itself loses strokes, and then a reviewer misreads.

// For each pixel of a side its cell, and for each cell how many pixels it has.
function cellsOf(pixels, cells) {
  const cell = new Uint32Array(pixels)
  const size = new Uint32Array(cells)
  for (let at = 0; at < pixels; at += 1) {
    cell[at] = Math.floor((at * cells) / pixels)
    size[cell[at]] += 1
  }
  return { cell, size }
}

// How many black pixels each cell has, for a canvas of so many cells across and down, at most one for each pixel.
function countBlack({ width, height, rows }, across, down) {
  const stride = (width + 7) >> 3
  const count = new Uint32Array(across * down)
  const columns = cellsOf(width, across).cell
  const lines = cellsOf(height, down).cell
  for (let row = 0; row < height; row += 1) {
    const to = lines[row] * across
    for (let i = row * stride, column = 0; column < width; i += 1, column += 8) {
      let byte = rows[i]
      while (byte !== 0) {
        const bit = Math.clz32(byte) - 24
        byte &= ~(0x80 >> bit)
        if (column + bit < width) count[to + columns[column + bit]] += 1
      }
    }
  }
  return count
}

// A byte of grey for each cell of a canvas of so many.
export function greyBytes(page, across, down) {
  const count = countBlack(page, across, down)
  const columns = cellsOf(page.width, across).size
  const lines = cellsOf(page.height, down).size
  const grey = new Uint8Array(across * down)
  let k = 0
  for (let line = 0; line < down; line += 1) {
    for (let column = 0; column < across; column += 1, k += 1) {
      grey[k] = 255 - Math.round((255 * count[k]) / (columns[column] * lines[line]))
    }
  }
  return grey
}

const SHADES = Uint32Array.from({ length: 256 }, (_, grey) => grey * 0x010101 + 0xff000000)

// what a canvas takes of such bytes
export function imageOf(grey, across, down) {
  const image = new ImageData(across, down)
  const out = new Uint32Array(image.data.buffer)
  for (let k = 0; k < out.length; k += 1) out[k] = SHADES[grey[k]]
  return image
}
