#!/usr/bin/env node
export function* walk(tree) {
  for (const one of tree) if (Array.isArray(one)) yield* walk(one); else yield one;
}
