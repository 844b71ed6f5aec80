// The mark of a key, for the log: sixteen hexadecimal digits of the SHA-256 of the key's digest, as text. It tells the calls of one key from
// those of another, and tivrenan-audit finds by it whose key it was; it isn't the key, nor the digest that a matter keeps.
import crypto from 'crypto'

const sum = (text) => crypto.createHash('sha256').update(text).digest('hex')

const mark = (request) => {
  const key = (request.headersIn['Desk-Key'] || '').replace(/^[ \t]+|[ \t]+$/g, '')
  return key === '' ? '' : sum(sum(key)).slice(0, 16)
}

export default { mark }
