// The words of pages, each asked for once as long as it is among the last ones. It tells `told` with the document and the page
// whose words came.

const KEPT = 200

export class Words extends EventTarget {
  constructor(desk) {
    super()
    Object.assign(this, { desk, kept: new Map() }) // by their path, the latest last
  }

  // a promise of { left, top, width, height, line, text } of each word in order; `isBehind`: nobody pressed for it
  read(doc, page, isBehind = false) {
    const path = `/docs/${doc}/pages/${page}/words`
    const it = this.kept.get(path) ?? this.load(path, { doc, page }, isBehind)
    if (!isBehind) this.desk.hurry(path)
    this.kept.delete(path)
    this.kept.set(path, it)
    if (this.kept.size > KEPT) this.kept.delete(this.kept.keys().next().value)
    return it.promise
  }

  load(path, detail, isBehind) {
    const it = { words: null, promise: this.desk.see(path, isBehind) }
    it.promise.then(
      (words) => {
        it.words = words
        this.dispatchEvent(new CustomEvent('told', { detail }))
      },
      () => { if (this.kept.get(path) === it) this.kept.delete(path) },
    )
    return it
  }

  // the words where they were told, or null
  known(doc, page) {
    return this.kept.get(`/docs/${doc}/pages/${page}/words`)?.words ?? null
  }
}
