// The room of a receiver: the productions that were granted, the files of one by folder, an image or a text looked at, and all
// saved. What the desk tells of a production is its ID and its numbers; the volume's name comes from the office.
import { keepCapitals } from './capitals.js'
import { imageOf } from './ink.js'
import { reasonOf } from './messages.js'
import { NotNow } from './review.js'
import { saveAsArchive, saveInFolder } from './saving.js'
import { Volume } from './volume.js'
import { stopWalk } from './walk.js'

const MOST_TEXT = 200000 // characters that are shown
const KEYS = { Escape: () => stopWalk() }

function button(text, work) {
  const made = document.createElement('button')
  made.type = 'button'
  made.textContent = text
  made.addEventListener('click', work)
  return made
}

export class Receiver {
  constructor(desk, decoder, parts) {
    Object.assign(this, { desk, decoder, volume: null, granted: [], ...parts })
    this.form.addEventListener('submit', this.said((event) => {
      event.preventDefault()
      return this.open()
    }))
    this.sum.addEventListener('input', () => this.compareManifest())
    this.folder.addEventListener('change', () => this.showFiles())
    this.intoFolder.addEventListener('click', this.said(() => this.save(saveInFolder)))
    this.asArchive.addEventListener('click', this.said(() => this.save(saveAsArchive)))
    this.stop.addEventListener('click', () => stopWalk())
    this.again.addEventListener('click', this.said(() => this.list()))
    document.addEventListener('keydown', ({ key }) => KEYS[key]?.())
    new ResizeObserver(this.said(() => (this.shown.hidden || this.canvas.hidden ? null : this.draw()))).observe(this.shown)
    keepCapitals(this.form.elements.volume)
    this.intoFolder.hidden = window.showDirectoryPicker === undefined
  }

  // what a press does is said in this room
  said(work) {
    return async (event) => {
      try {
        this.tell(await work(event))
      } catch (why) {
        this.tell(reasonOf(why), true)
      }
    }
  }

  tell(text, isRefused = false) {
    if (typeof text !== 'string') return
    this.told.textContent = `${isRefused ? '✗' : '✓'} ${text}`
    this.told.classList.toggle('refused', isRefused)
  }

  begin() {
    this.form.elements.volume.focus()
    return this.said(() => this.list())()
  }

  async list() {
    try {
      this.granted = await this.desk.see('/granted')
    } catch (why) {
      if (why.rule !== 'NoRoute') throw why
      throw new NotNow('The office’s door for receivers isn’t open now. Ask when it is, and press List again.')
    }
    const { id } = this.form.elements
    id.replaceChildren(...this.granted.map((it) => {
      const option = document.createElement('option')
      option.value = it.id
      option.textContent = `${it.id}: numbers ${it.first.toLocaleString('en')} to ${it.last.toLocaleString('en')}`
      return option
    }))
    return this.granted.length === 0
      ? 'Nothing was granted to you yet.'
      : `${this.granted.length === 1 ? '1 production was' : `${this.granted.length} productions were`} granted to you. `
        + 'Give the name of the volume, as the office told it, and open it.'
  }

  async open() {
    const { id, volume } = this.form.elements
    if (id.value === '') throw new NotNow('Nothing was granted to you yet.')
    this.volume = await Volume.open(this.desk, id.value, volume.value.trim()).catch((why) => {
      if (why.rule !== 'NoProduction') throw why
      throw new NotNow('No volume of this name is granted to you. Give its name as the office told it.')
    })
    const labels = this.volume.labels()
    this.head.textContent = `${this.volume.name}: ${this.volume.paths().length.toLocaleString('en')} files`
      + (labels === null ? '' : `, pages ${labels.first} to ${labels.last}`)
    this.sum.value = ''
    this.manifest.textContent = this.volume.digest
    this.compareManifest()
    this.folder.replaceChildren(...[...this.volume.folders()].map(([folder, paths]) => {
      const option = document.createElement('option')
      option.value = folder
      option.textContent = `${folder} (${paths.length.toLocaleString('en')})`
      return option
    }))
    this.opened.hidden = false
    this.showFiles()
    this.failed.replaceChildren()
    return `${this.volume.name} is open.`
  }

  // the line that the office sent by another way has the manifest's digest
  compareManifest() {
    const sent = /[0-9a-f]{64}/.exec(this.sum.value.toLowerCase())?.[0]
    const isSame = sent === this.volume.digest
    this.same.textContent = sent === undefined ? '' : isSame ? '✓ It is the manifest that the office sent the line of.'
      : '✗ It isn’t the manifest of that line. Ask the office.'
    this.same.classList.toggle('refused', sent !== undefined && !isSame)
  }

  showFiles() {
    this.shown.hidden = true
    const paths = this.volume.folders().get(this.folder.value) ?? []
    this.files.replaceChildren(...paths.map((path) => {
      const row = document.createElement('li')
      row.append(button(path.slice(path.lastIndexOf('/') + 1), this.said(() => this.look(path))))
      return row
    }))
  }

  async look(path) {
    const { volume } = this
    const bytes = await volume.read(path, true)
    const isImage = path.startsWith(`${volume.name}/IMAGES/`)
    if (isImage) await this.showImage(bytes)
    else this.text.textContent = new TextDecoder().decode(bytes).slice(0, MOST_TEXT)
    this.canvas.hidden = !isImage
    this.text.hidden = isImage
    this.name.textContent = path
    this.shown.hidden = false
    return `${path} has the digest that the manifest tells.`
  }

  async showImage(bytes) {
    const image = await this.decoder.read(bytes)
    if (image.fault !== undefined) throw new NotNow(`This page can’t be drawn (${image.fault}).`)
    this.image = image
    this.shown.hidden = false
    this.canvas.hidden = false
    await this.draw()
  }

  // as wide as its place, also where that becomes another
  async draw() {
    const { image } = this
    const points = window.devicePixelRatio
    const across = Math.min(image.width, Math.max(1, Math.floor(this.canvas.parentElement.clientWidth * points)))
    const down = Math.max(1, Math.round((image.height * across) / image.width))
    const grey = await this.decoder.grey(image, across, down)
    if (this.image !== image) return
    Object.assign(this.canvas, { width: across, height: down })
    this.canvas.style.width = `${across / points}px`
    this.canvas.getContext('2d').putImageData(imageOf(grey, across, down), 0, 0)
  }

  async save(how) {
    this.failed.replaceChildren()
    this.stop.disabled = false
    const failed = (text) => {
      const row = document.createElement('li')
      row.textContent = text
      this.failed.append(row)
    }
    try {
      const { kept, all, isStopped } = await how(this.volume, { far: (text) => this.tell(text), failed })
      const text = `${kept.toLocaleString('en')} of ${all.toLocaleString('en')} files are saved, each with the digest that the `
        + 'manifest tells.'
      if (kept === all) return text
      const told = how === saveAsArchive ? 'No archive was made: not all files came.' : text
      throw new NotNow(`${isStopped ? 'Stopped. ' : ''}${told}`)
    } catch (why) {
      if (why.name === 'AbortError') return 'No folder was chosen.'
      throw why
    } finally {
      this.stop.disabled = true
    }
  }
}
