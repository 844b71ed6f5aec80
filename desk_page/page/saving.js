// A volume saved: into a folder that is chosen, or as one archive. Each file is compared with its digest before it is kept; one
// that stands in the folder already, with its digest, isn't fetched again.
import { Archive } from './archive.js'
import { NoAnswer } from './desk.js'
import { reasonOf } from './messages.js'
import { walk } from './walk.js'

async function handleIn(folder, path, create) {
  const parts = path.split('/')
  let at = folder
  for (const part of parts.slice(0, -1)) at = await at.getDirectoryHandle(part, { create })
  return at.getFileHandle(parts.at(-1), { create })
}

async function standing(folder, path) {
  try {
    const handle = await handleIn(folder, path, false)
    return new Uint8Array(await (await handle.getFile()).arrayBuffer())
  } catch (why) {
    if (why.name === 'NotFoundError') return null
    throw why
  }
}

async function put(folder, path, bytes) {
  const stream = await (await handleIn(folder, path, true)).createWritable()
  await stream.write(bytes)
  await stream.close()
}

// Goes through all files of a volume; what failed is told by `failed`. The answer is how many were done, and how it ended.
function each(volume, work, { far, failed }) {
  const paths = volume.paths()
  return walk(paths.length, async (k) => {
    try {
      await work(paths[k])
    } catch (why) {
      failed(`${paths[k]}: ${reasonOf(why)}`)
      return !(why instanceof NoAnswer)
    }
    return true
  }, (k) => far(`${k.toLocaleString('en')} of ${paths.length.toLocaleString('en')} files. Escape or Stop stops.`))
}

export async function saveInFolder(volume, tell) {
  const folder = await window.showDirectoryPicker({ mode: 'readwrite' })
  let kept = 0
  const ended = await each(volume, async (path) => {
    const before = await standing(folder, path)
    if (before === null || !(await volume.isSame(path, before))) await put(folder, path, await volume.read(path))
    kept += 1
  }, tell)
  return { ...ended, kept, all: volume.paths().length }
}

export async function saveAsArchive(volume, tell) {
  const archive = new Archive()
  let kept = 0
  const ended = await each(volume, async (path) => {
    archive.add(path, await volume.read(path))
    kept += 1
  }, tell)
  const all = volume.paths().length
  if (kept === all) download(`${volume.name}.tar`, archive.end())
  return { ...ended, kept, all }
}

export function download(name, blob) {
  const link = document.createElement('a')
  link.href = URL.createObjectURL(blob)
  link.download = name
  link.click()
  setTimeout(() => URL.revokeObjectURL(link.href), 60000)
}
