// Pages that were read. Each comes once as long as it is among the last ones; what comes next may be read ahead.

const KEPT = 16

export class Pages {
  constructor(desk, decoder) {
    Object.assign(this, { desk, decoder, kept: new Map() }) // by their path, the latest last
  }

  // A promise of { width, height, rows }, or of { fault } where the file can't be read. `isBehind`: nobody pressed for it.
  read(doc, page, isBehind = false) {
    const path = `/docs/${doc}/pages/${page}`
    const it = this.kept.get(path) ?? this.load(path, isBehind)
    if (!isBehind) this.desk.hurry(path)
    this.kept.delete(path)
    this.kept.set(path, it)
    if (this.kept.size > KEPT) this.kept.delete(this.kept.keys().next().value)
    return it.promise
  }

  load(path, isBehind) {
    const it = { image: undefined }
    it.promise = this.desk.see(path, isBehind).then((file) => this.decoder.read(file))
    it.promise.then(
      (image) => { it.image = image },
      () => { if (this.kept.get(path) === it) this.kept.delete(path) },
    )
    return it
  }

  // the page where it was read before
  known(doc, page) {
    return this.kept.get(`/docs/${doc}/pages/${page}`)?.image
  }
}
