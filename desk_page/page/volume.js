// A granted volume as its receiver sees it: its files by the manifest, each compared with its digest as it comes.
import { digestOf } from './digest.js'
import { NotNow } from './review.js'

// a line of the manifest: `sha256sum -c` reads it too
const LINE = /^([0-9a-f]{64}) {2}(.+)$/

const textOf = (bytes) => new TextDecoder('utf-8', { fatal: true, ignoreBOM: true }).decode(bytes)

function readManifest(bytes, volume) {
  const lines = textOf(bytes).split('\n')
  if (lines.pop() !== '') throw new NotNow('The manifest has no end: fetch it anew.')
  return new Map(lines.map((line) => {
    const found = LINE.exec(line)
    const isPath = (path) => path.startsWith(`${volume}/`) && !path.split('/').some((part) => part === '' || /^\.+$/.test(part))
    if (found === null || !isPath(found[2])) {
      throw new NotNow(`The manifest has a line that is none: ${line}`)
    }
    return [found[2], found[1]]
  }))
}

export class Volume {
  static async open(desk, id, name) {
    const volume = new Volume(desk, id, name)
    volume.manifest = await volume.fetch(volume.manifestPath, true)
    volume.digest = await digestOf(volume.manifest)
    volume.digests = readManifest(volume.manifest, name)
    return volume
  }

  constructor(desk, id, name) {
    Object.assign(this, { desk, id, name, manifestPath: `${name}/MANIFEST.TXT` })
  }

  // the bytes of a file as they come
  fetch(path, isPressed = false) {
    const parts = [this.id, ...path.split('/')].map(encodeURIComponent)
    return this.desk.see(`/granted/${parts.join('/')}`, !isPressed)
  }

  // the bytes of a file that has its digest
  async read(path, isPressed = false) {
    if (path === this.manifestPath) return this.manifest
    const bytes = await this.fetch(path, isPressed)
    const digest = await digestOf(bytes)
    if (digest !== this.digests.get(path)) throw new NotNow(`${path} isn’t as the manifest has it: its SHA-256 is ${digest}.`)
    return bytes
  }

  async isSame(path, bytes) {
    const due = path === this.manifestPath ? this.digest : this.digests.get(path)
    return (await digestOf(bytes)) === due
  }

  paths() {
    return [...this.digests.keys(), this.manifestPath]
  }

  // the folders in order, each with the paths of its files
  folders() {
    const folders = new Map()
    for (const path of this.paths()) {
      const folder = path.slice(0, path.lastIndexOf('/'))
      folders.set(folder, [...(folders.get(folder) ?? []), path])
    }
    return folders
  }

  // the first and the last label: the names of the images
  labels() {
    const images = this.paths().filter((path) => path.startsWith(`${this.name}/IMAGES/`))
    const names = images.map((path) => path.split('/').at(-1).split('.')[0])
    return names.length === 0 ? null : { first: names[0], last: names.at(-1), count: names.length }
  }
}
