// What page/make, or teaching/film, puts into a page: the machine's module, the image, blocks and the page of films as
// bytes; disks, lessons, the manual and the rest as values.

import { decode, fromBase64 } from "./bytes.js";
import { inflate } from "./inflate.js";

// Each is packed, in base64, with the number of its bytes.
const { data, ...files } = Object.fromEntries([...document.querySelectorAll("script[data-size]")].map(
  ({ id,
     textContent,
     dataset }) => [id.replace("packed-", ""), inflate(fromBase64(textContent), Number(dataset.size))]));

export const DATA = { ...JSON.parse(decode(data)), ...files };
