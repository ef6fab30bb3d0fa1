# libqtree for OpenWrt, over the portable package: package/libqtree/Makefile of a feed. Nobody has tried it in an OpenWrt tree. The copy
# within the package cannot have the package's checksum; the one beside it does.
#
# The text is compiled by a clang of the machine that builds, version 15 or newer, which HOST_CLANG names; the SDK's compiler
# does the rest. OpenWrt's own LLVM has the back end for BPF alone. Most MIPS routers have 32 bits or are big-endian: not these.
include $(TOPDIR)/rules.mk

PKG_NAME:=libqtree
PKG_VERSION:=@VERSION@
PKG_RELEASE:=1
PKG_SOURCE:=qtree-$(PKG_VERSION)-portable.tar.xz
PKG_SOURCE_URL:=file://$(CURDIR)
PKG_HASH:=@HASH@
PKG_BUILD_DIR:=$(BUILD_DIR)/qtree-$(PKG_VERSION)-portable
HOST_CLANG?=clang

include $(INCLUDE_DIR)/package.mk

define Package/libqtree
  SECTION:=libs
  CATEGORY:=Libraries
  TITLE:=Packet scheduler with the behaviour of Linux tc
  DEPENDS:=@(aarch64||riscv64||x86_64||mips64el)
  BUILDONLY:=1
endef

define Package/qtree-play
  SECTION:=net
  CATEGORY:=Network
  TITLE:=Player of scripts over libqtree
  DEPENDS:=@(aarch64||riscv64||x86_64||mips64el)
endef

# clang is told the processor, by a triple that it knows; the SDK's compiler, which has its own, links.
WORDS = CLANG="$(HOST_CLANG)" TARGET=$(ARCH)-linux-musl OPT=-Os CC="$(TARGET_CC)" AR="$(TARGET_AR)" CFLAGS="$(TARGET_CFLAGS)" \
    LDFLAGS="$(TARGET_LDFLAGS)" PREFIX=/usr

define Build/Compile
	$(MAKE) -C $(PKG_BUILD_DIR) $(WORDS)
endef

define Build/InstallDev
	$(MAKE) -C $(PKG_BUILD_DIR) $(WORDS) DESTDIR=$(1) install
endef

define Package/qtree-play/install
	$(INSTALL_DIR) $(1)/usr/bin
	$(INSTALL_BIN) $(PKG_BUILD_DIR)/qtree $(1)/usr/bin/qtree-play
endef

$(eval $(call BuildPackage,libqtree))
$(eval $(call BuildPackage,qtree-play))
