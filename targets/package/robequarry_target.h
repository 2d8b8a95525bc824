/* Included before everything else where the package for @target@ is used: the library's code is for this processor and no other. */
#if !(@check@)
#error "robequarry-@target@ is for @target@, and this is compiled for another processor or another float ABI"
#endif
