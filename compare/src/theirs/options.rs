//! The crate's types of option by what they hold: one table serves building and taking apart.

use dhcproto::v4::{Architecture, DhcpOption, MessageType, NodeType, OptionCode};
use std::net::Ipv4Addr;

/// For the options that hold one type: the function that builds one by its code, and the one that looks inside.
macro_rules! options_holding {
    ($held:ty, $build:ident, $look:ident: $($code:literal $name:ident),*) => {
        /// The option of this code, where it holds this type.
        pub fn $build(code: u8, held: $held) -> Option<DhcpOption> {
            match code {
                $($code => Some(DhcpOption::$name(held)),)*
                _ => None,
            }
        }

        /// What the option holds, where it is of this type.
        pub fn $look(option: &DhcpOption) -> Option<&$held> {
            match option {
                $(DhcpOption::$name(held) => Some(held),)*
                _ => None,
            }
        }
    };
}

options_holding!(Ipv4Addr, address, as_address: 1 SubnetMask, 16 SwapServer, 28 BroadcastAddr, 32 RouterSolicitationAddr,
    50 RequestedIpAddress, 54 ServerIdentifier, 118 SubnetSelection, 150 TFTPServerAddress);
options_holding!(Vec<Ipv4Addr>, addresses, as_addresses: 3 Router, 4 TimeServer, 5 NameServer, 6 DomainNameServer, 7 LogServer,
    8 QuoteServer, 9 LprServer, 10 ImpressServer, 11 ResourceLocationServer, 41 NisServers, 42 NtpServers, 44 NetBiosNameServers,
    45 NetBiosDatagramDistributionServer, 48 XFontServer, 49 XDisplayManager, 65 NispServers, 68 MobileIpHomeAgent, 69 SmtpServer,
    70 Pop3Server, 71 NntpServer, 72 WwwServer, 73 DefaultFingerServer, 74 IrcServer, 75 StreetTalkServer,
    76 StreetTalkDirectoryAssistance, 89 BcmsControllerAddrs, 92 AssociatedIp);
options_holding!(Vec<(Ipv4Addr, Ipv4Addr)>, pairs, as_pairs: 21 PolicyFilter, 33 StaticRoutingTable);
options_holding!(u8, byte, as_byte: 23 DefaultIpTtl, 37 DefaultTcpTtl, 52 OptionOverload);
options_holding!(bool, yes_no, as_yes_no: 19 IpForwarding, 20 NonLocalSrcRouting, 27 AllSubnetsLocal, 29 PerformMaskDiscovery,
    30 MaskSupplier, 31 PerformRouterDiscovery, 34 TrailerEncapsulated, 36 EthernetEncapsulation, 39 TcpKeepaliveGarbage);
options_holding!(u16, u16_number, as_u16: 13 BootFileSize, 22 MaxDatagramSize, 26 InterfaceMtu, 57 MaxMessageSize);
options_holding!(Architecture, architecture, as_architecture: 93 ClientSystemArchitecture);
options_holding!(Vec<u16>, u16s, as_u16s: 25 PathMtuPlateauTable);
options_holding!(u32, u32_number, as_u32: 24 PathMtuAgingTimeout, 35 ArpCacheTimeout, 38 TcpKeepaliveInterval, 51 AddressLeaseTime,
    58 Renewal, 59 Rebinding, 91 ClientLastTransactionTime, 106 Ipv6OnlyPreferred, 152 BulkLeaseQueryBaseTime,
    153 BulkLeasQueryStartTimeOfState, 154 BulkLeaseQueryQueryStartTime, 155 BulkLeaseQueryQueryEndTime);
options_holding!(i32, i32_number, as_i32: 2 TimeOffset);
options_holding!(String, text, as_text: 12 Hostname, 14 MeritDumpFile, 15 DomainName, 17 RootPath, 18 ExtensionsPath, 40 NisDomain,
    47 NetBiosScope, 56 Message, 62 NwipDomainName, 64 NispServiceDomain, 100 TimezonePosixString, 101 TimezoneDatabaseString,
    114 CaptivePortal);
options_holding!(Vec<OptionCode>, codes, as_codes: 55 ParameterRequestList);
options_holding!(NodeType, node_type, as_node_type: 46 NetBiosNodeType);
options_holding!(MessageType, message_type, as_message_type: 53 MessageType);
options_holding!(Vec<u8>, bytes, as_bytes: 43 VendorExtensions, 60 ClassIdentifier, 61 ClientIdentifier, 63 NwipInformation,
    66 TFTPServerName, 67 BootfileName, 77 UserClass, 97 ClientMachineIdentifier);
