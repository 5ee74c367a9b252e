// The services that a page has of its own, by their numbers: `./forth page --services FILE.js` puts those of that file
// here.

export const OWN_SERVICES = {};
