// A tar archive (POSIX.1-1988, ustar) of files that are in memory.

const BLOCK = 512

function writeText(head, at, text) {
  new TextEncoder().encodeInto(text, head.subarray(at))
}

const octal = (number, digits) => number.toString(8).padStart(digits, '0')

// The head of a file. A path has at most 100 bytes, as those of a volume do.
function headOf(path, size) {
  const head = new Uint8Array(BLOCK)
  if (new TextEncoder().encode(path).length > 100) throw new Error(`a path is too long for an archive: ${path}`)
  writeText(head, 0, path)
  writeText(head, 100, octal(0o644, 7)) // who may read it
  writeText(head, 108, octal(0, 7)) // owner
  writeText(head, 116, octal(0, 7)) // group
  writeText(head, 124, octal(size, 11))
  writeText(head, 136, octal(0, 11)) // time: the same volume gives the same archive
  writeText(head, 148, ' '.repeat(8)) // the sum is taken with blanks in its own place
  writeText(head, 156, '0') // a file
  writeText(head, 257, 'ustar')
  writeText(head, 263, '00')
  const sum = head.reduce((total, byte) => total + byte, 0)
  writeText(head, 148, `${octal(sum, 6)}\0 `)
  return head
}

export class Archive {
  constructor() {
    this.pieces = []
  }

  // a file goes into a Blob at once, which a browser may keep on its disk
  add(path, bytes) {
    const rest = new Uint8Array((BLOCK - (bytes.length % BLOCK)) % BLOCK)
    this.pieces.push(new Blob([headOf(path, bytes.length), bytes, rest]))
  }

  end() {
    return new Blob([...this.pieces, new Uint8Array(2 * BLOCK)], { type: 'application/x-tar' })
  }
}
