import type { Item } from "./types.js";

export class Cart {
  constructor(readonly items: Item[]) {}
  sum() {
    return this.items.reduce((sum, it) => sum + it.price, 0);
  }
}
