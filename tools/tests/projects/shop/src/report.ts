import type { Cart } from "./cart";

export interface Report {
  lines: string[];
}
export const report = (cart: Cart): Report => ({ lines: cart.items.map((it) => it.name) });
