# a pending interrupt does not stop a suspend
s/if self\.platform\.has_pending_interrupts() {/if false \&\& self.platform.has_pending_interrupts() {/
