// Node's own modules and names, of any type, for tsc in bindings/node/test: the declarations of Node itself aren't a
// package of Debian.

declare module "node:*";
declare const Buffer: any;
declare const process: any;
