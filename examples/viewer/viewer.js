// Shows the frames that `vp8 serve` answers with: a list of its streams, a scrub bar over a stream's packets, its
// newest frame while the file grows, and with `--webp` forty of its frames as thumbnails. Plain JavaScript; no proof is
// claimed.
//
// ?stream=NAME&packet=N opens a frame; with &sum the page shows the SHA-256 of the canvas's pixels (RGBA), by which
// try_viewer compares them with what `vp8 decode` writes.
'use strict';

const POLL_MILLISECONDS = 500;
const MOST_THUMBNAILS = 40;
const query = new URLSearchParams(location.search);
const at = id => document.getElementById(id);
const canvas = at('picture');
const context = canvas.getContext('2d', {willReadFrequently: true});

let packets = 0;       // how many packets the stream has
let state = '';        // 'open' while the file may grow, 'ended', or a fault
let rate = 25;         // frames a second
let waiting = null;    // the request under way, which a newer one ends
let playing = null;    // the timer of Play

// The first frame of a YUV4MPEG2 file: two lines of text, and then its planes.
function readY4m(buffer) {
  const bytes = new Uint8Array(buffer);
  const first = bytes.indexOf(10), second = bytes.indexOf(10, first + 1);
  const line = new TextDecoder().decode(bytes.subarray(0, first));
  const [, width, height] = line.match(/ W(\d+) H(\d+)/).map(Number);
  return {width, height, planes: bytes.subarray(second + 1)};
}

// BT.601 in its limited range, with the chroma of the pixel's 2 by 2 square.
function toRgba({width, height, planes}) {
  const image = new ImageData(width, height), out = image.data;
  const columns = (width + 1) >> 1, rows = (height + 1) >> 1;
  const blue = width * height, red = blue + columns * rows;
  for (let y = 0, k = 0; y < height; y++) {
    for (let x = 0; x < width; x++, k += 4) {
      const chroma = (y >> 1) * columns + (x >> 1);
      const luma = 298 * (planes[y * width + x] - 16), u = planes[blue + chroma] - 128, v = planes[red + chroma] - 128;
      out[k] = (luma + 409 * v + 128) >> 8;
      out[k + 1] = (luma - 100 * u - 208 * v + 128) >> 8;
      out[k + 2] = (luma + 516 * u + 128) >> 8;
      out[k + 3] = 255;
    }
  }
  return image;
}

async function sumOfCanvas() {
  const pixels = context.getImageData(0, 0, canvas.width, canvas.height).data;
  const sum = new Uint8Array(await crypto.subtle.digest('SHA-256', pixels));
  return Array.from(sum, byte => byte.toString(16).padStart(2, '0')).join('');
}

// Shows a packet's frame, or says why there is none. A newer call ends an older one.
async function show(number) {
  waiting?.abort();
  const own = waiting = new AbortController();
  at('packet').value = number;
  try {
    const reply = await fetch(`s/${at('stream').value}/y4m/${number}`, {signal: own.signal});
    if (!reply.ok) {
      const why = reply.status === 404 ? 'shows no picture' : await reply.text();
      at('said').value = `packet ${number} ${why}`;
      return;
    }
    const frame = readY4m(await reply.arrayBuffer());
    [canvas.width, canvas.height] = [frame.width, frame.height];
    context.putImageData(toRgba(frame), 0, 0);
    const sum = query.has('sum') ? ` sum ${await sumOfCanvas()}` : '';
    at('said').value = `packet ${number}, ${frame.width}x${frame.height}${sum}`;
  } catch (error) {
    if (error.name !== 'AbortError') at('said').value = `packet ${number}: ${error.message}`;
  }
}

// Frames spread over the stream, each an eighth of its sides; a click opens it. There are none if the server shows no
// WebP files; packets that show nothing are left out.
async function showThumbnails() {
  const stream = at('stream').value, count = Math.min(MOST_THUMBNAILS, packets);
  const address = number => `s/${stream}/webp/${number}/8`;
  const numbers = Array.from({length: count}, (_, k) => Math.floor(k * packets / count));
  at('thumbnails').replaceChildren();
  while (numbers.length && !(await fetch(address(numbers[0]))).ok) numbers.shift();
  if (stream !== at('stream').value) return;
  for (const number of numbers) {
    const picture = new Image();
    picture.title = picture.alt = `packet ${number}`;
    picture.onclick = () => { stop(); show(number); };
    picture.onerror = () => picture.remove();
    picture.src = address(number);
    at('thumbnails').append(picture);
  }
}

// Asks how far the stream is; it follows the newest packet if that is wanted.
async function look() {
  const reply = await fetch(`s/${at('stream').value}/info`, {cache: 'no-store'});
  const info = Object.fromEntries((await reply.text()).trim().split('\n').map(line => line.split(' ')));
  const grown = Number(info.packets) > packets;
  [packets, state] = [Number(info.packets), info.state];
  if (info.rate) {
    const [frames, seconds] = info.rate.split('/').map(Number);
    rate = Math.min(60, Math.max(1, frames / seconds));
  }
  at('packet').max = Math.max(0, packets - 1);
  at('state').value = `${state}, ${packets} packets`;
  if (grown && at('follow').checked) await show(packets - 1);
}

async function choose() {
  [packets, state] = [0, ''];
  await look();
  await show(at('follow').checked ? Math.max(0, packets - 1) : Number(at('packet').value));
  await showThumbnails();
}

function stop() {
  clearTimeout(playing);
  playing = null;
  at('play').textContent = 'Play';
}

// Shows frame after frame, each once the one before is there, at most at the stream's rate.
async function step() {
  const began = performance.now(), next = Number(at('packet').value) + 1;
  if (next >= packets && state !== 'open') return stop();
  if (next < packets) await show(next);
  if (playing !== null) playing = setTimeout(step, Math.max(0, 1000 / rate - (performance.now() - began)));
}

async function begin() {
  const names = (await (await fetch('streams')).text()).trim().split('\n');
  at('stream').append(...names.map(name => new Option(name)));
  if (names.includes(query.get('stream'))) at('stream').value = query.get('stream');
  await look();
  at('packet').value = query.get('packet') ?? 0;
  await choose();
  setInterval(() => {
    if (state === 'open') look().catch(error => { at('state').value = error.message; });
  }, POLL_MILLISECONDS);
}

at('stream').onchange = () => { stop(); at('packet').value = 0; choose(); };
at('packet').oninput = () => { stop(); show(Number(at('packet').value)); };
at('follow').onchange = () => at('follow').checked && packets && show(packets - 1);
at('play').onclick = () => {
  if (playing !== null) return stop();
  at('play').textContent = 'Stop';
  playing = setTimeout(step, 0);
};
begin().catch(error => { at('said').value = `the server does not answer: ${error.message}`; });
