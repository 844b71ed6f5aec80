// SHA-256, as 64 characters of 0 to 9 and a to f.
export async function digestOf(bytes) {
  const digest = await crypto.subtle.digest('SHA-256', bytes)
  return Array.from(new Uint8Array(digest), (byte) => byte.toString(16).padStart(2, '0')).join('')
}

export const digestOfText = (text) => digestOf(new TextEncoder().encode(text))
