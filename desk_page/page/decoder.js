// The page's side of the worker that decodes pages.

const WORKER = 'decode_worker.js'

// a browser that wants to be told which scripts are meant is told this one
const address = () => globalThis.trustedTypes
  ? trustedTypes.createPolicy('decoder', { createScriptURL: () => WORKER }).createScriptURL('')
  : WORKER

export class Decoder {
  constructor() {
    this.worker = new Worker(address(), { type: 'module' })
    this.asked = new Map() // what waits for the worker, by its number
    this.count = 0
    this.worker.addEventListener('message', ({ data: { id, made } }) => this.settle(id, ({ resolve }) => resolve(made)))
    this.worker.addEventListener('error', (event) => {
      for (const id of [...this.asked.keys()]) this.settle(id, ({ reject }) => reject(new Error(event.message)))
    })
  }

  settle(id, how) {
    const it = this.asked.get(id)
    this.asked.delete(id)
    if (it !== undefined) how(it)
  }

  ask(what) {
    return new Promise((resolve, reject) => {
      this.count += 1
      this.asked.set(this.count, { resolve, reject })
      this.worker.postMessage({ id: this.count, ...what })
    })
  }

  // { width, height, rows }: packed rows; or { fault } where the file can't be read
  read(file) {
    return this.ask({ file })
  }

  // a byte of grey for each cell of a canvas
  grey({ width, height, rows }, across, down) {
    return this.ask({ page: { width, height, rows }, across, down })
  }
}
